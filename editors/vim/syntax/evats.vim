" Commands of evats, one a line, and the language in which vats are written. A line that spells no command is taken for one of a
" script: how many lines a vat's script has is not counted.
if exists("b:current_syntax")
  finish
endif
syn sync minlines=100

" The language.
syn keyword evatsDefinition def var method to
syn keyword evatsControl if else while for in return escape try catch throw when
syn keyword evatsConstant true false null
syn keyword evatsReference Ref
syn match evatsFunction "\%(\<\%(to\|method\)\s\+\)\@<=\h\w*"
syn match evatsFunction "\%(\<def\s\+\)\@<=\h\w*\ze\s*[({]"
syn match evatsInteger "\<\d\+"
syn match evatsOperator "<-\|->\|:=\|==\|!=\|<=\|>=\|&&\|||\|//\|[<>!+*-]"
syn match evatsComment "#.*" contains=@Spell
syn match evatsError "\\." contained
syn match evatsEscape +\\["\\'ntr]+ contained
syn region evatsText start=+"+ skip=+\\.+ end=+"+ contains=evatsError,evatsEscape
syn cluster evatsLanguage contains=evatsDefinition,evatsControl,evatsConstant,evatsReference,evatsFunction,evatsInteger,evatsOperator
syn cluster evatsLanguage add=evatsComment,evatsText

" Commands. Behind one `#` begins no comment, but in the program that is asked.
syn match evatsCommand "^\s*\zs[a-z-]\+" contained
syn match evatsEvent "\<e\d\+\%(\.[mpo]\d\+\)\=\>" contained
syn match evatsLine "^\s*\%(vat\|ask\|enabled\|step\|run\|work\|arrive\|forward\|turn\|learn\|show\|journal\|log\|cone\|undo\|undo-cone\|redo\|exchange\|settle\|why\|event\|message\|object\)\%(\s\+\w.*\)\=\s*$" contains=evatsCommand,evatsEvent,evatsInteger
syn region evatsAsk matchgroup=evatsCommand start="^\s*ask\ze\s\+\h" end="$" keepend oneline contains=@evatsLanguage

hi def link evatsDefinition Keyword
hi def link evatsControl Conditional
hi def link evatsConstant Constant
hi def link evatsReference Type
hi def link evatsFunction Function
hi def link evatsInteger Number
hi def link evatsOperator Operator
hi def link evatsComment Comment
hi def link evatsText String
hi def link evatsEscape SpecialChar
hi def link evatsError Error
hi def link evatsCommand Statement
hi def link evatsEvent Identifier

let b:current_syntax = "evats"

"""Asks vim how it shows texts."""
import json
import shutil
import subprocess

# It takes some seconds of a core, of which a loaded machine may give little.
SECONDS = 600
SCRIPT = """\
set nocompatible encoding=utf-8 runtimepath^={editors}/vim synmaxcol=0
filetype plugin on
syntax on
let names = {names}
let told = []
for name in names
  execute "edit" fnameescape(name)
  let rows = []
  for number in range(1, line("$"))
    call add(rows, map(range(1, col([number, "$"]) - 1), {{_, at -> synIDattr(synID(g:number, at, 1), "name")}}))
  endfor
  call add(told, {{"type": &filetype, "comments": &commentstring, "rows": rows}})
endfor
call writefile([json_encode(told)], "{folder}/told")
qall!
"""


def vim():
    """The command of a vim that can show texts in colours, or None."""
    command = shutil.which("vim")
    if command is None:
        return None
    told = subprocess.run([command, "--version"], capture_output=True, text=True, check=False).stdout
    return command if "+syntax" in told and "+eval" in told else None


def shown(editors, folder, texts):
    """What vim makes of texts, each in a file that ends with .evats: the type of the file, how its comments are written, and the
    name of the group of each byte of each line."""
    names = [str(folder / f"{number}.evats") for number in range(len(texts))]
    for name, text in zip(names, texts):
        with open(name, "w", encoding="utf-8") as file:
            file.write(text)
    script = folder / "script.vim"
    script.write_text(SCRIPT.format(editors=editors, folder=folder, names=json.dumps(names)), encoding="utf-8")
    words = [vim(), "-u", "NONE", "-i", "NONE", "-n", "-es", "-S", str(script)]
    subprocess.run(words, stdin=subprocess.DEVNULL, capture_output=True, timeout=SECONDS, check=False)
    return json.loads((folder / "told").read_text(encoding="utf-8"))

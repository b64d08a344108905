"""Each refusal in words, a sentence for each code."""

# What a refusal names stands for {0} and {1}.
SENTENCES = {
    "S1": "There is no such command.",
    "S2": "These are not the words that the command wants.",
    "S3": "The line is longer than 65,536 bytes.",
    "S4": "The input ended inside the script.",
    "S7": "No worker could be started.",
    "L1": "At byte {0} of the text no token begins.",
    "L2": "The text in quotation marks that opens at byte {0} does not end.",
    "L3": "The \\ at byte {0} begins no escape: there are \\\" \\\\ \\' \\n \\t \\r.",
    "L4": "The integer at byte {0} is too large: the largest is 9223372036854775807.",
    "L5": "What stands at byte {0} cannot follow what stands before it, or the text ends there too early.",
    "L6": "More than 100 brackets are open.",
    "L7": "There was no memory to read the text.",
    "L8": "The text is too long: it may have 65,536 bytes and 16,384 tokens.",
    "K1": "Nothing before it defines the name {0}.",
    "K2": "{0} cannot be assigned: no `var` made it.",
    "K3": "{0} is defined twice in one scope, or is a method twice with as many parameters.",
    "K4": "The program is nested deeper than 200.",
    "K5": "The program has more than 16,384 parts.",
    "B1": "There is no vat {0}.",
    "B2": "There is a vat {0} already.",
    "B3": "There is no message {0}.",
    "B4": "The message is not where the command wants it: on its way for `arrive`, at a vat for `forward` and `turn`.",
    "B5": "The message cannot do that yet: what it was sent to does not lead there, or what its `when` waits for is not known.",
    "B6": "The message {0} has to be done first.",
    "B7": "The vat has nothing to learn of this promise: it does not wait for it, or nothing was published for it yet.",
    "B8": "The journal is full, or there are no more names for events.",
    "B9": "The turn found what is no longer there.",
    "B10": "A turn of the vat is being run elsewhere.",
    "B11": "No such turn is being run.",
    "B12": "The journal has no event {0}.",
    "B13": "{0} is undone.",
    "B14": "{0} is live: it was not undone.",
    "B15": "{0} cannot be taken back alone: {1} came of it and is live.",
    "B16": "{0} and {1} cannot both be live as they stand: {1} wrote a cell that {0} met without it.",
    "B17": "{0} cannot be live without its cause {1}, which is undone.",
    "B18": "{0} and {1} cannot change places: one of them wrote a cell that the other one met.",
    "B19": "A budget is 1 to 1,000,000.",
    "B20": "There was no memory for the command.",
    "B22": "{0} is settled: it can no longer be taken back, redone or moved.",
    "B23": "No vat has an object {0}.",
}
POSITION = "The journal has no entry at the position {0}."


def in_words(refusal):
    """The sentence for a refusal; nothing for a code that has none."""
    sentence = SENTENCES.get(refusal.code, "")
    if refusal.code == "B12" and refusal.arguments and refusal.arguments[0].isdigit():
        sentence = POSITION
    names = [*refusal.arguments, "..", ".."]
    return sentence.format(*names) if sentence else ""

"""Wrong libraries: runtime/library.c with a mistake in it, which the calls of calls.py have to see. What is proved stands below it."""
import os
import subprocess

TOP = os.path.dirname(os.path.dirname(os.path.dirname(os.path.abspath(__file__))))
RIGHT = "no mistake"
CALL, END = "    return zirofen_call(", "wanted ? wanted : &length);\n}"
# by the way of calling that sees them mistakes: what stands there, and what stands there instead
MISTAKES = {
    "ASan": {
        "the lengths of two texts are swapped": {"(tree, tree_length), TEXT(other, other_length)":
                                                 "(tree, other_length), TEXT(other, tree_length)"},
        "two texts are swapped": {"TEXT(tree, tree_length), TEXT(other, other_length)":
                                  "TEXT(other, other_length), TEXT(tree, tree_length)"},
        "another command answers": {"TEXT(words, words_length)": '"upgrade", 7'},
        "more is written than there is room for": {"report ? room : 0": "report ? room + 1 : 0"},
        "less is written than there is room for": {"report ? room : 0": "report && room ? room - 1 : 0"},
        "the length is told where nobody asks for it": {END: "wanted);\n}"},
        "a null report is written": {"report ? report : &nowhere,": "report,", "report ? room : 0": "14"},
        "what was written is lost where a block grows": {"tried(realloc(it, size ? size : alignment))": "tried(malloc(size))"},
    },
    "refused": {
        "want of memory is a yes": {CALL: "    int status = zirofen_call(",
                                    END: END[:-1] + "    return status == 3 && *(wanted ? wanted : &length) == 14 ? 0 : status;\n}"},
        "a block that was refused is used": {"{found != 0, found ? found : &nothing}": "{1, found ? found : &nothing}"},
    },
    "valgrind": {"nothing is freed": {"{ free(it); }": "{ (void)it; }"}},
}


def libraries(way):
    """Yields of the right library and of each wrong one that a way of calling sees its name and its text."""
    with open(f"{TOP}/runtime/library.c", encoding="ascii") as file:
        right = file.read()
    yield RIGHT, right
    for name, mistake in MISTAKES[way].items():
        text = right
        for old, new in mistake.items():
            assert text.count(old) == 1, f"{name}: {old} stands {text.count(old)} times in runtime/library.c"
            text = text.replace(old, new)
        yield name, text


def compile_c(text, to):
    words = ["gcc", "-std=c11", "-O1", "-ffreestanding", "-fno-builtin", f"-I{TOP}/include", "-x", "c", "-c", "-", "-o", to]
    subprocess.run(words, input=text, text=True, check=True)

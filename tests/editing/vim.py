"""Vim without a screen, with the files of editors/vim and nothing of the user's."""
import json
import pathlib
import shutil
import subprocess

FILES = pathlib.Path(__file__).resolve().parents[2] / "editors/vim"

SETTINGS = """
set nocompatible encoding=utf-8 fileformats=unix viminfo= noswapfile hidden
let &runtimepath = {files} .. ',' .. $VIMRUNTIME
let g:fortress_program = {program}
filetype plugin indent on
syntax on

" The groups of each line, each with the byte at which it begins.
function Groups()
  let found = []
  for line in range(1, line('$'))
    let row = []
    for column in range(1, col([line, '$']) - 1)
      let name = synIDattr(synID(line, column, 1), 'name')
      if empty(row) || row[-1][1] !=# name
        call add(row, [column - 1, name])
      endif
    endfor
    call add(found, row)
  endfor
  return found
endfunction

" The lines of the buffer, indented anew.
function Indented()
  silent normal! gg=G
  return getline(1, '$')
endfunction

" What `:make` puts into the quickfix list.
function Listed()
  silent make!
  return map(getqflist(), {_, it -> [it.valid, it.bufnr ? bufname(it.bufnr) : '',
      \\ it.lnum, it.col, it.nr, it.text]})
endfunction

function Each(call)
  for name in readfile('names')
    execute 'edit' fnameescape(name)
    call writefile([json_encode(call(a:call, []))], 'answers', 'a')
    set nomodified
  endfor
endfunction
"""


def is_here():
    """Whether there is a Vim with syntax highlighting."""
    if not shutil.which("vim"):
        return False
    told = subprocess.run(["vim", "--version"], capture_output=True, text=True).stdout
    return "+syntax" in told and "+eval" in told and "+quickfix" in told


def quoted(text):
    """A text as Vim's script has it."""
    return "'" + str(text).replace("'", "''") + "'"


def run(folder, script, program="fortress"):
    """Runs a script in a folder with the settings above, and reads what it wrote to `answers`."""
    settings = SETTINGS.replace("{files}", quoted(FILES)).replace("{program}", quoted(program))
    (folder / "settings.vim").write_text(settings)
    caught = "call writefile([json_encode(v:exception)], 'answers', 'a')"
    (folder / "script.vim").write_text(f"try\n{script}\ncatch\n{caught}\nendtry\nqa!\n")
    (folder / "answers").unlink(missing_ok=True)
    words = ["vim", "-es", "-u", "settings.vim", "-i", "NONE", "-S", "script.vim"]
    subprocess.run(words, cwd=folder, stdin=subprocess.DEVNULL, stdout=subprocess.DEVNULL,
                   stderr=subprocess.DEVNULL, timeout=600)
    return [json.loads(line) for line in (folder / "answers").read_text().splitlines()]


def each(folder, function, sources, program="fortress"):
    """What a function answers in each buffer; the sources are bytes by their names."""
    for name, source in sources.items():
        (folder / name).write_bytes(source)
    (folder / "names").write_text("".join(f"{name}\n" for name in sources))
    answers = run(folder, f"call Each('{function}')", program)
    if len(answers) != len(sources):
        raise RuntimeError(f"Vim ended after {len(answers)} of {len(sources)}: {answers[-1:]}")
    return dict(zip(sources, answers))


def groups(text, rows):
    """The group of each character of a text, from what `Groups` answers."""
    found = []
    for line, row in zip(text.split("\n"), [*rows, []]):
        names, at = {}, 0
        for (start, name), (stop, _) in zip(row, [*row[1:], [len(line.encode()), ""]]):
            names.update(dict.fromkeys(range(start, stop), name))
        for character in line:
            found.append(names.get(at, ""))
            at += len(character.encode())
        found.append("")
    return found[: len(text)]

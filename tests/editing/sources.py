"""The sources that both editors are tried on: examples, cases, pages of rules, and tricky ones."""
import pathlib
import re

from editing import lexical

TOP = pathlib.Path(__file__).resolve().parents[2]
LONGEST_LINE = 2000

TRICKY = [
    "1<-2", "x-=1", "a->b", "a=>=b", "a====b", "x:=-1", "a===>b=/=>c<=>d",
    "ends", "[\\\\]", "a - b-c", "a <= b<c",
    "(* a (* b *) c *) d", "(* (*) *) *) x", "(*) (* a\nb", "(* (*(* *)*)*) end",
    "(* a\nb *) do (*",
    "(*) end (*\ndo (* \" *) if \"(*\" then", "x(*)y\n(z)", "f(x) f (x) f(* c *)(x) f(*) c\n(x)",
    "FOO AB A_B A__AB AAB", "A AA A_A _AB AB_ AB1 ÄB ABÄ", "AND NOT ANDNOT and BIG MAX BIGMAX",
    "a·b a· ·b (a)·(b) \"a\"·x 2 · 3 end·x ·x(y)", "SUMx ∑x ∏ PROD SUM[i<-0#9]i",
    "é ñandú 名前 Ωmega x̂ _ _a a_ été·1", "007 0 9223372036854775807", "1.5 a.b a.f(x) o.end",
    r'"" "a" "(* b *)" "\\" x "\"" y "\n\t" "é名𝒳" end', '"a" (* " *) "b"', 'x"a"y"b"',
    "component T export Executable", "trait A extends { B, C } excludes D comprises { E }",
    "trait  A\tend trait\nB end object C(x: ZZ32) end object (* c *) D end",
    "traits objects Trait array[\\ZZ32\\](3).fill(0)",
    "api A import B export C spawn imports apis", "api  (* c *) Ab; trait Cd object Ef end", "self selfish true truex false", "println(x) x.length print",
    "abort() abort tryatomic atomic atomical", "Array[\\Any, ZZ32\\] ZZ32x ZZ64 Zz32",
    "opr ≤(a: A, b: A): Boolean = a ≤ b", "f(): ()=>()", "fn (x) => x; fn(x)⇒x", "a^b^c 2x^2"[:5],
    "\ta\f b\r\n c", "", "\n\n", "end", "a ", "  do  ",
]

# A source, and the place of the character that both editors show as a fault.
FAULTY = [("*", 0), ("a=/b", 2), ("a / b", 2), ("12x", 2), ("2·3", 1), ("2é", 1), ('"\\q" x', 1),
          ('"a\tb"', 2), ('"a\u0085b"', 2), ("a\u00a0b", 1), ("a | b", 2), ("f ! x", 2),
          ("a\\b", 1),
          ("a\u2212b", 1), ("a \u00f7 b", 2), ("`", 0), ("\u200b", 0), ("a\ufeff", 1), ("'a'", 0)]

# Sources with a fault, behind which the last line is an `end` again.
RECOVERED = ['"open\nend', '"open\\\nend', '"a\\"\nend', "12x\nend", "*\nend", "(* a *) *)\nend"]

INDENTED = """component T
run(): () = do
  if a then
    b
  elif c then (*) if
    d
  else
    case e of
      1 => f
      else => do
        g
      end
    end
  end
  do
    h
  also do
    i
  end
  try
    j
  catch e
    Exception => k
  finally
    l
  end
end
end
"""


def every_word():
    """A source with each word, sign and built-in name of docs/LANGUAGE.md, one a line."""
    signs = [*lexical.OPERATORS, *lexical.SYMBOLS, *lexical.PAIRS]
    return "\n".join(sorted([*lexical.WORDS, *lexical.BUILT_IN, *signs])) + "\n"


def page_sources():
    """The sources of docs/rules that are text, each with the name of its page and its number."""
    for page in sorted((TOP / "docs/rules").glob("[0-9]*.md")):
        for at, text in enumerate(re.findall(r"```fortress\n(.*?)```", page.read_text(), re.S), 1):
            yield f"{page.stem}_{at}.fss", text


def examples():
    """The examples, those of several files among them."""
    return sorted([*(TOP / "examples").glob("*.fss"), *(TOP / "examples/shapes").glob("*.fss")])


def all_sources():
    """All sources by the names of their files, each a text."""
    found = {}
    for path in [*examples(), *sorted((TOP / "tests/cases").glob("*.fss"))]:
        found[path.name] = path.read_bytes().decode()
    found.update(page_sources())
    found["every_word.fss"] = every_word()
    found.update({f"tricky_{at}.fss": text for at, text in enumerate(TRICKY)})
    return {name: text for name, text in found.items()
            if all(len(line) < LONGEST_LINE for line in text.split("\n"))}


def unindented(text):
    """A source without white space before its lines, but for those that begin in a comment."""
    parts, _ = lexical.read(text)
    inside = [range(it.start + 1, it.stop) for it in parts if it.kind == "comment"]
    at, lines = 0, []
    for line in text.split("\n"):
        is_inside = any(at in it for it in inside)
        lines.append(line if is_inside else line.lstrip(" \t"))
        at += len(line) + 1
    return "\n".join(lines)

"""The tokens that the client reads in a text, beside those that the server counts."""
from __future__ import annotations

import random

import pytest

from cqd_client.protocol import started
from cqd_client.tokens import tokens_of

# pieces of texts that may stand beside each other
PIECES = {
    "js": ["x = /[/]/g, a / b / c;", "`a${b}c${`d${{e: 1}}`}`;", "f(a => <b c={d}>it's {e ?? 'f'}</b>) / 2;", "a.if / b / c;", "a?.5 : 0x1F_f;", "// CPD-OFF\n",
           "// CPD-ON\n", "/* \"*/", "<></>;", "#p in q;", "'\\'' + \"\\\n\";", "\u00e9t\u00e9 ** \\u0061;", "<A.B c='\"' d:e={<g/>} />;", "}/a/g;", "a++ / 2;"],
    "ts": ["let x: Map<a, Array<b>> = c;", "d!/e/f;", "g >> h >>>= i >= j;", "k = <L>m / /n/.o;", "p?: q;", "r ? s : `t${<u>v}`;", "// CPD-OFF\n", "// CPD-ON\n", "!/w/;"],
    "java": ["int a = 0x1.p3;", "/* \" */", "// CPD-OFF\n", "// CPD-ON\n", "\"\"\"\n a\"b\\\"\"\" \"\"\";", "List<List<A>> b;", "c >>>= 'd';", "@E(1) f();"],
    "go": ["a := `b\n`;", "c()\n", "'\\''", "d &^= 0x1_f;", "// CPD-OFF\n", "// CPD-ON\n", "return\n", "e++\n"],
    "c": ["#include <a.h>\n", "b->c <<= 0x1.p+3;", "L\"d\\\n\";", "// CPD-OFF\n", "// CPD-ON\n", "%:define e ##\n", "f\\\ng;"],
}


@pytest.mark.parametrize("lang", sorted(PIECES))
def test_as_many_as_the_server_counts(program: str, lang: str) -> None:
    chance = random.Random(11)
    texts = [" ".join(chance.choices(PIECES[lang], k=12)) for _ in range(150)]
    with started(program, ["--chunk", "2"], 60) as server:
        for number, text in enumerate(texts):
            server.answer({"op": "put", "project": "p", "path": str(number), "lang": lang, "text": text})
        files = server.answer({"op": "files", "project": "p"}).members["files"]
    assert all(file["state"] == "ok" for file in files)
    assert [(int(file["path"]), file["tokens"]) for file in files] == [(int(file["path"]), len(tokens_of(texts[int(file["path"])], lang))) for file in files]

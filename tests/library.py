"""The library's calls in Python: cffi compiles the installed header, as C or as C++, into a module."""
import importlib.util
import itertools
import sysconfig

import pytest

from tests.prefix import PREFIX
from tests.support import need

LANGUAGES = {"c": ["cc"], "cpp": ["c++", "-x", "c++"]}
ROOM = 64  # for how many values each result of a call has room
UNSET = b"c"  # each byte of a result before a call


def declarations():
    """Returns the declarations of the header, cut out as its comment says."""
    text = PREFIX.text.split('extern "C" {\n#endif\n')[1].split("/* end of the declarations */")[0]
    return text.replace("FFOSOLVE_MUST_USE", "")


class Calls:
    """call(NAME, *INPUTS) calls ffosolve_NAME of the installed libffosolve.a."""

    def __init__(self, name, declared, source="", *words, language="c"):
        """Makes a module of the header, the C code `source` and the library, linked by `words`, too. Its `ffi` and
        `lib` have what `declared` declares."""
        maker, include = pytest.importorskip("cffi").FFI(), sysconfig.get_path("include")
        need(f"{include}/Python.h")  # Debian: python3-dev
        maker.cdef(declared)
        maker.set_source(name, f'#include "ffosolve.h"\n{source}')
        maker.emit_c_code(str(PREFIX.work / f"{name}.c"))
        compiler = [*LANGUAGES[language], "-shared", "-fPIC", "-I", include, "-I", PREFIX.header.parent]
        path = PREFIX.compile(compiler, f"{name}.so", [f"{name}.c"], "-x", "none", PREFIX.archive, *words)
        made = importlib.util.module_from_spec(importlib.util.spec_from_file_location(name, path))
        self.ffi, self.lib = made.ffi, made.lib

    def __call__(self, *words):
        """Makes the call for each combination of `words`, of which a list has alternatives. Returns what `made`
        returns, which has to be the same for each."""
        words = [word if isinstance(word, list) else [word] for word in words]
        found, *others = [self.made(*some) for some in itertools.product(*words)]
        assert others == [found] * len(others)
        return found

    def made(self, name, *inputs):
        """Makes a call with as many of `inputs` as it takes. They lack the length of a list or text that comes first.
        Returns a list: the status, then the values that the call wrote, each result's from its first on."""
        call, ffi, inputs, results = getattr(self.lib, f"ffosolve_{name}"), self.ffi, [*inputs], []
        kinds = ffi.typeof(call).args
        if kinds[0].kind == "pointer":
            inputs.insert(1, len(inputs[0]))
        for at, kind in enumerate(kinds):
            if at and kind.kind == "pointer":
                results.append(ffi.new(ffi.getctype(kind.item, f"[{ROOM}]")))
                ffi.buffer(results[-1])[:] = UNSET * ffi.sizeof(results[-1])
                inputs.insert(at, results[-1])
        found = [call(*inputs[:len(kinds)])]
        for result in results:
            written = [at for at in range(ROOM) if {*ffi.buffer(result + at)[:]} != {*UNSET}]
            assert written == [*range(len(written))]
            found += [self.shown(result[at]) for at in written]
        return found

    def shown(self, it):
        """Returns a number as it is, an array as a list, and a struct as a dictionary."""
        if isinstance(it, int):
            return it
        kind = self.ffi.typeof(it)
        return [*it] if kind.kind == "array" else {name: self.shown(getattr(it, name)) for name, _ in kind.fields}

"""Jars and classes that are made for tests: K with a method `f`, classes below others, and jars of such entries."""
import io
import warnings
import zipfile
from dataclasses import replace

from tools.assembler import code_of, named, utf8
from tools.class_k import code_f, method_f, with_code, with_constants, with_method

K = "K.class"
FINE = with_code(code_of("return")).data()
BAD = with_code(code_of("pop; return")).data()
RULELESS = with_code(code_of("jsr 3; return")).data()
CUT = FINE[:-1]
NEWER = FINE[:6] + b"\0\x3e" + FINE[8:]
OLDER = FINE[:6] + b"\0\x30" + FINE[8:]


def below(name, above):
    """A class without members below another."""
    return named(name, above).data()


def fine(name):
    """The class K under another name."""
    return FINE.replace(b"\0\1K", len(name).to_bytes(2, "big") + name.encode())


def called_verified():
    """K with a method `verified` that is refused."""
    k = with_constants(utf8("verified"))
    return replace(k, methods=[method_f(code_f(code_of("pop; return"))).replace(b"\x00\x05\x00\x06", b"\x00\x08\x00\x06", 1)]).data()


def returns_object_of(name):
    """K with a method whose verdict asks for a class of this name, to which a class X is to be assignable."""
    constants = with_constants(utf8(f"(LX;)L{name};")).constants
    method = method_f(code_f(code_of("aload_0; areturn"), stack=1, variables=1)).replace(b"\x00\x05\x00\x06", b"\x00\x05\x00\x08", 1)
    return replace(with_method(method), constants=constants).data()


def jar(*entries):
    """A jar of these entries, each a path and its bytes."""
    data = io.BytesIO()
    with warnings.catch_warnings(), zipfile.ZipFile(data, "w", zipfile.ZIP_DEFLATED) as it:
        warnings.simplefilter("ignore")
        for path, content in entries:
            it.writestr(path, content)
    return data.getvalue()


def changed(data, mark, behind, put):
    """The jar with other bytes so far after the last one of these marks."""
    at = data.rindex(mark) + behind
    return data[:at] + put + data[at + len(put) :]

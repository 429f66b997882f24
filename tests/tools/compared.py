"""The end of the scripts of `run/`: compares what was got with what is wanted."""
import pathlib
import tempfile


def compared(script, results):
    """Prints each row of the results in a folder of their own that is not as wanted, and the counts. The status is 1 if there is one."""
    passed, failed = 0, 0
    with tempfile.TemporaryDirectory() as name:
        for what, got, want in results(pathlib.Path(name)):
            passed, failed = passed + (got == want), failed + (got != want)
            if got != want:
                print(f"tests/run/{script}: {what}: {got!r}, and wanted {want!r}")
    print(f"{passed} passed, {failed} failed")
    return 1 if failed else 0

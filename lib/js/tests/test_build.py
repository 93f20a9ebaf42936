"""Tests what the build refuses, and what its modules need of an engine: only what those have that are five years old. And how large they are."""
import gzip
import pathlib
import re
import subprocess

import pytest
from server import PACKAGE, ROOT

JS = pathlib.Path(__file__).resolve().parents[1]
DECLARED = """
declare { i64, i64 } @rattle_realloc(ptr noundef, i64 noundef, i64 noundef, i64 noundef) #5
declare { i64, i64 } @rattle_alloc(i64 noundef, i64 noundef) #5
declare void @rattle_dealloc(ptr noundef) #5
declare void @llvm.memset.p0.i64(ptr writeonly captures(none), i8, i64, i1 immarg) #6
declare void @llvm.memmove.p0.p0.i64(ptr writeonly captures(none), ptr readonly captures(none), i64, i1 immarg) #7
declare void @llvm.trap() #8
declare i64 @llvm.cttz.i64(i64, i1 immarg) #9
"""
MODULE = f"""target datalayout = "e-m:e-i64:64"
target triple = "x86_64-unknown-linux-gnu"
define i64 @core_version() #0 {{
  ret i64 300
}}
{DECLARED}
attributes #0 = {{ nounwind "probe-stack"="inline-asm" "stack-probe-size"="3072" "target-cpu"="x86-64-v2" }}
"""
EDITS = {
    "another declaration": MODULE.replace("declare void @llvm.trap", "declare void @puts(ptr)\ndeclare void @llvm.trap"),
    "another intrinsic": MODULE.replace("declare void @llvm.trap", "declare i32 @llvm.x86.sse42.crc32.32.8(i32, i8)\ndeclare void @llvm.trap"),
    "a declaration that is missing": MODULE.replace("declare void @llvm.trap() #8\n", ""),
    "assembly in a function": MODULE.replace("  ret i64 300", '  call void asm sideeffect "nop", ""()\n  ret i64 300'),
    "assembly of the module": 'module asm "nop"\n' + MODULE,
    "another address space": MODULE.replace("  ret i64 300", "  %p = load i64, ptr addrspace(256) null\n  ret i64 300"),
    "a type of x86": MODULE.replace("  ret i64 300", "  %p = alloca x86_fp80\n  ret i64 300"),
    "a thread's variable": "@x = thread_local global i64 0\n" + MODULE,
    "two triples": MODULE + 'target triple = "x86_64-unknown-linux-gnu"\n',
    "no layout": MODULE.replace("target datalayout", "; target datalayout"),
}
HEAD, MEMORY = b"\0asm\1\0\0\0", b"\5\3\1\0\1"
# What is dropped of a module, its content, and what is left, which is nothing if it is refused.
DROPPED = [
    ("table", HEAD + b"\4\4\1\x70\4\0" + MEMORY, HEAD + MEMORY),
    ("table", HEAD + MEMORY + b"\x09\1\0", None),
    ("names", HEAD + MEMORY + b"\0\6\4name\0", HEAD + MEMORY),
]
# The most KB (1000 bytes) of what people fetch. A budget is only ever lowered.
BUDGET = {"vt220.wasm": 380, "page.html": 290, "package/vt220.global.js": 210, "package/vt220-player.global.js": 350}
MODULES = ("vt220.wasm", "reader.wasm")
SOURCES = [PACKAGE / "src" / name for name in ("vt220.js", "node.js", "finding.js", "timeline.js")]
FEATURES = ["bulk-memory", "sign-ext"]
LIBRARY = ["tsc", "--noEmit", "--allowJs", "--checkJs", "--target", "es2022", "--lib", "es2021,dom", "--module", "es2022", "--moduleResolution", "node"]
# What a library lacks: TypeScript's errors for a property, a global name, and one of a module.
LACKS = r"error TS(?:2550|2551|2583|2584|2339): .*"
# Prints what a source has of ES2022 and later, beyond fields and methods.
SYNTAX = """const ts = require("typescript"), text = require("fs").readFileSync(process.argv[1], "utf8");
const tree = ts.createSourceFile("x.js", text, ts.ScriptTarget.Latest, true), kinds = ts.SyntaxKind, found = [...tree.parseDiagnostics.map((fault) => fault.messageText)];
const newer = (node, inside) => node.kind === kinds.ClassStaticBlockDeclaration || (node.kind === kinds.AwaitExpression && !inside) || (node.kind === kinds.ForOfStatement && node.awaitModifier && !inside)
  || (ts.isBinaryExpression(node) && ts.isPrivateIdentifier(node.left)) || (ts.isRegularExpressionLiteral(node) && /[dv][a-z]*$/.test(node.text)) || node.assertClause;
const visit = (node, inside) => {
  if (newer(node, inside)) found.push(node.getText().slice(0, 60));
  ts.forEachChild(node, (child) => visit(child, inside || ts.isFunctionLike(node)));
};
visit(tree, false);
console.log(found.join("\\n"));"""


def ran(tool, *words):
    return subprocess.run([JS / tool, *words], capture_output=True, text=True)


@pytest.fixture
def retarget(tmp_path):
    def retarget(text, crate="vt220_c"):
        (tmp_path / "module.ll").write_text(text)
        return ran("retarget", crate, tmp_path / "module.ll")

    return retarget


def test_retarget(retarget):
    made = retarget(MODULE)
    assert (made.returncode, made.stderr) == (0, "")
    assert 'triple = "wasm64-unknown-unknown"' in made.stdout and "x86" not in made.stdout
    assert "attributes #0 = { nounwind }" in made.stdout
    assert retarget("@s = constant [4 x i8] c\"asm \"\n" + MODULE).returncode == 0


@pytest.mark.parametrize("edit", EDITS)
def test_refused(retarget, edit):
    made = retarget(EDITS[edit])
    assert (made.returncode, made.stdout) == (1, "") and made.stderr.startswith("retarget: ")


def test_another_crate(retarget):
    assert retarget(MODULE, "recording_c").returncode == 1


@pytest.mark.parametrize("part, module, left", DROPPED)
def test_drop(tmp_path, part, module, left):
    place, kept = tmp_path / "module.wasm", tmp_path / "kept.wasm"
    place.write_bytes(module)
    assert ran("drop", part, place, kept).returncode == (left is None)
    assert left is None or kept.read_bytes() == left


def is_valid(wasm, features):
    return subprocess.run(["wasm-opt", "--mvp-features", *(f"--enable-{feature}" for feature in features), wasm, "-o", "/dev/null"], stdout=subprocess.PIPE, stderr=subprocess.PIPE).returncode == 0


def lacking(source):
    """Returns what a source uses that the library of ES2021 lacks."""
    ran = subprocess.run([*LIBRARY, *map(str, source)], capture_output=True, text=True)
    return re.findall(LACKS, ran.stdout)


def newer(source):
    return subprocess.run(["node", "-e", SYNTAX, source], capture_output=True, text=True, check=True, env={"NODE_PATH": "/usr/share/nodejs", "PATH": "/usr/bin:/bin"}).stdout.strip()


@pytest.mark.parametrize("name", MODULES)
def test_features(name):
    assert is_valid(PACKAGE / name, FEATURES)
    for feature in FEATURES:
        assert not is_valid(PACKAGE / name, [other for other in FEATURES if other != feature]), f"it doesn't need {feature}"


def test_library():
    assert lacking(SOURCES) == []


@pytest.mark.parametrize("source", SOURCES, ids=lambda source: source.name)
def test_syntax(source):
    assert newer(source) == ""


@pytest.mark.parametrize("name", BUDGET)
def test_budget(name):
    assert (ROOT / "out/js" / name).stat().st_size <= 1000 * BUDGET[name]


def test_budget_by_gzip():
    assert len(gzip.compress((ROOT / "out/js/vt220.wasm").read_bytes())) <= 111000

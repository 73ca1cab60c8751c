"""Has a module of LLVM that was lowered for x86-64 say that it is for WebAssembly, and export what it defines for others."""
import re
import sys

LAYOUT = "e-m:e-p:64:64-p10:8:8-p20:8:8-i64:64-i128:128-n32:64-S128-ni:1:10:20"  # clang's for wasm64

with open(sys.argv[1], encoding="utf-8") as it:
    text = it.read()
if "llvm.x86" in text or "asm " in text:
    sys.exit("the module has code for x86-64 alone")
text = re.sub(r"target datalayout = .*", f'target datalayout = "{LAYOUT}"', text)
text = re.sub(r"target triple = .*", 'target triple = "wasm64-unknown-unknown"', text)
text = text.replace('"target-cpu"="x86-64-v2"', '"target-cpu"="lime1"')
text = text.replace('"probe-stack"="inline-asm" "stack-probe-size"="3072"', '"no-builtin-bcmp" "no-builtin-memcmp" "no-builtin-strlen"')
for number, name in enumerate(re.findall(r"(?m)^define (?!internal)[^@\n]*@(\w+)\(", text), 9000):
    head = re.search(rf"(?m)^(define (?!internal)[^@\n]*@{name}\([^\n]*?) #(\d+) {{", text)
    attributes = re.search(rf"(?m)^attributes #{head[2]} = {{(.*)}}", text)[1]
    text = text.replace(head[0], f"{head[1]} #{number} {{")
    text += f'\nattributes #{number} = {{{attributes} "wasm-export-name"="{name}" }}\n'
with open(sys.argv[1], "w", encoding="utf-8") as it:
    it.write(text)

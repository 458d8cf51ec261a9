" Made by editors/make of editors/tokens.json: change that, and make it again.
if exists('b:did_indent')
  finish
endif
let b:did_indent = 1
setlocal indentexpr=OrcaIndent() indentkeys=o,O,0=end,0=od,0=fi,0=else,0=elsif,0=until
let b:undo_indent = 'setlocal indentexpr< indentkeys<'
function! OrcaIndent()
  let before = prevnonblank(v:lnum - 1)
  let line = getline(before)
  let opens = line =~# '^[^#]*\<\%(begin\|do\|then\|else\|repeat\|record\)\s*\%(#.*\)\?$' || line =~# '^\s*\%(object\)\>[^#]*;\s*\%(#.*\)\?$'
  let closes = getline(v:lnum) =~# '^\s*\%(end\|od\|fi\|else\|elsif\|until\)\>'
  return max([0, indent(before) + (opens - closes) * shiftwidth()])
endfunction

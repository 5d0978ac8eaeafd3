" Vim compiler file: ioac on a source of I/O automata. After `:compiler ioa`, `:make` checks the source and goes to what is refused.
if exists('current_compiler')
  finish
endif
let current_compiler = 'ioa'

" The second line on standard error is FILE:LINE: CODE: WORDS. Behind it, or in its place, come warnings; all else is for reading.
CompilerSet makeprg=ioac\ check\ --compositions\ --explain\ %:S
CompilerSet errorformat=%f:%l:\ %m,%tarning:\ %f\\,\ line\ %l:\ %m,%tarning:\ %f:\ %m,%-G%.%#

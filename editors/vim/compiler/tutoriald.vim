" Vim compiler file for scripts of Tutorial D: :make runs one and lists its refusals
if exists("current_compiler")
  finish
endif
let current_compiler = "tutoriald"

let s:folder = fnamemodify(resolve(expand("<sfile>:p")), ":h:h:h:h")
let &l:makeprg = fnameescape(s:folder . "/tools/refusals") . " %:S"
CompilerSet errorformat=%f:%l:%c:\ %m,%-G%.%#

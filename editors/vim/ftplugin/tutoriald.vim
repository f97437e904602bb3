" Vim filetype plugin for scripts of Tutorial D
if exists("b:did_ftplugin")
  finish
endif
let b:did_ftplugin = 1

compiler tutoriald
let s:run = fnamemodify(resolve(expand("<sfile>:p")), ":h:h:h:h") . "/tools/run"
command! -buffer Run execute "!" . shellescape(s:run, 1) . " --table %:S"
setlocal comments=s1:/*,mb:*,ex:*/,:// commentstring=//\ %s
let b:undo_ftplugin = "setlocal makeprg< errorformat< comments< commentstring< | delcommand Run"

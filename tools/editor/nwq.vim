" For Vim: copy it to ~/.vim/compiler/nwq.vim. In a folder with scripts `:compiler nwq` and then
" `:make` compiles the script that is edited, with the header header.nss.
if exists("current_compiler")
    finish
endif
let current_compiler = "nwq"

CompilerSet makeprg=nwq\ compile\ header.nss\ %:t:r
" The line and the caret below a message are passed over.
CompilerSet errorformat=%f:%l:%c:\ %trror:\ %m,%f:%l:%c:\ %tote:\ %m
CompilerSet errorformat+=%f:\ %trror:\ %m,%f:\ %tote:\ %m,%-G%.%#

" What `fieldc check` finds in a program of the field calculus, by :make.
if exists('current_compiler')
  finish
endif
let current_compiler = 'fieldc'

CompilerSet makeprg=fieldc\ check\ --format=gcc\ %:S
CompilerSet errorformat=%f:%l:%c:\ %trror:\ %m,%f:%l:%c:\ %tarning:\ %m,%f:%l:%c:\ %tote:\ %m,%-G%.%#

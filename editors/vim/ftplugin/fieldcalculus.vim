" Settings for programs of the field calculus.
if exists('b:did_ftplugin')
  finish
endif
let b:did_ftplugin = 1

setlocal comments=:// commentstring=//\ %s
compiler fieldc
let b:undo_ftplugin = 'setlocal comments< commentstring< makeprg< errorformat<'

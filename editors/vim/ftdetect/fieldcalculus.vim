" Files that end in .fc are programs of the field calculus (Vim itself takes them for FunC).
autocmd BufNewFile,BufRead *.fc set filetype=fieldcalculus

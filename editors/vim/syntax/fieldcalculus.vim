" Vim syntax file
" Language: the first-order field calculus of fc, and the sections of its inputs
"
" Every rule is a match, so that tokens end where those of the language do: in 10in a number ends and a word begins.

if exists('b:current_syntax')
  finish
endif

syntax case match

" ---- a program, to the first line that is exactly %%

syntax match fcInvalid /\S/
syntax match fcPunctuation /[(){},;:]/
syntax match fcOperator /[=+*<-]/
syntax match fcOperator /=>/
syntax match fcOperator /\.\./
syntax match fcNumber /[0-9]\+/
syntax match fcName /[A-Za-z][A-Za-z0-9_]*/
syntax match fcFunction /[A-Za-z][A-Za-z0-9_]*\ze\_s*(/
syntax match fcBuiltin /\%(min\|max\|mux\|fst\|snd\|minHoodLoc\|maxHoodLoc\|sumHood\|anyHood\|allHood\|rise\)[A-Za-z0-9_]\@!/
syntax match fcType /\%(bool\|int\|field\)[A-Za-z0-9_]\@!/
syntax match fcDevice /\%(uid\|nbrLink\)[A-Za-z0-9_]\@!/
syntax match fcConstant /\%(true\|false\)[A-Za-z0-9_]\@!/
syntax match fcWordOperator /\%(not\|and\|or\)[A-Za-z0-9_]\@!/
syntax match fcControl /\%(let\|in\|if\|nbr\|rep\|share\)[A-Za-z0-9_]\@!/
syntax match fcControl /sense[A-Za-z0-9_]\@!/ nextgroup=fcInput skipwhite skipempty
syntax match fcDeclaration /\%(language\|ceiling\|metric\|def\|main\)[A-Za-z0-9_]\@!/
syntax match fcDeclaration /input[A-Za-z0-9_]\@!/ nextgroup=fcInput skipwhite skipempty
syntax match fcInput /[A-Za-z][A-Za-z0-9_]*/ contained
syntax match fcComment /\/\/.*$/ contains=@Spell

" ---- the sections behind it: a network, and a log, a script or changes

syntax region fcSections matchgroup=fcSeparator start=/^%%\ze\r\?$/ end=/\%$/ contains=@fcInSections keepend
syntax cluster fcInSections contains=fcWrong,fcMark,fcRange,fcOf,fcCount,fcTruth,fcString,fcMember,fcStep,fcSeparator
syntax match fcWrong /\S/ contained
syntax match fcMark /[][{}(),:]/ contained
syntax match fcRange /\.\./ contained
syntax match fcOf /[A-Za-z][A-Za-z0-9_]*/ contained
syntax match fcCount /[0-9]\+/ contained
syntax match fcTruth /\%(true\|false\|null\|any\)[A-Za-z0-9_]\@!/ contained
syntax match fcString /"\%([^"\\]\|\\.\)*"/ contained
syntax match fcMember /"\%([^"\\]\|\\.\)*"\ze\s*:/ contained
syntax match fcStep /^\%(link\|unlink\|set\|poke\|join\|leave\|run\|mix\|show\|scramble\|deliver\|again\|lose\)[A-Za-z0-9_]\@!/ contained
syntax match fcStep /\%(^mix \+[0-9]\+ \+\)\@<=\%(link\|unlink\|set\|poke\)[A-Za-z0-9_]\@!/ contained
syntax match fcStep /^[BE]\ze[0-9]\+\r\?$/ contained
syntax match fcStep /^I\ze\r\?$/ contained
syntax match fcSeparator /^%%\ze\r\?$/ contained

syntax sync fromstart

highlight default link fcComment Comment
highlight default link fcNumber Number
highlight default link fcDeclaration Statement
highlight default link fcControl Conditional
highlight default link fcWordOperator Operator
highlight default link fcOperator Operator
highlight default link fcPunctuation Delimiter
highlight default link fcConstant Boolean
highlight default link fcDevice Constant
highlight default link fcBuiltin Function
highlight default link fcFunction Identifier
highlight default link fcType Type
highlight default link fcInput PreProc
highlight default link fcInvalid Error
highlight default link fcSeparator Special
highlight default link fcWrong Error
highlight default link fcMark Delimiter
highlight default link fcRange Operator
highlight default link fcOf PreProc
highlight default link fcCount Number
highlight default link fcTruth Boolean
highlight default link fcString String
highlight default link fcMember Label
highlight default link fcStep Statement

let b:current_syntax = 'fieldcalculus'

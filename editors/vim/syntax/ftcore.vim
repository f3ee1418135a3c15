" Vim syntax file: scripts of ftcore, docs/LANGUAGE.md. No word of the language is reserved, so each is looked for in its place alone.
if exists("b:current_syntax")
  finish
endif

syn case match

" A line that begins with none of the words below has no form.
syn match ftcoreError "^\s*\zs[^# \t]\S*"
syn match ftcoreComment "^\s*#.*$" contains=ftcoreTodo,@Spell
syn keyword ftcoreTodo contained TODO FIXME XXX

" What a line begins with, by rank.
syn match ftcoreVersionLine "^\s*\zsftrace\ze\%(\s\|$\)" nextgroup=ftcoreNumber skipwhite
syn match ftcoreDeclaration "^\s*\zsfunc\ze\%(\s\|$\)" nextgroup=ftcoreFunction skipwhite
syn match ftcoreSize "^\s*\zs\%(depth\|tramps\|ring\)\ze\%(\s\|$\)" nextgroup=ftcoreNumber skipwhite
syn match ftcoreSize "^\s*\zsabsent\ze\%(\s\|$\)" nextgroup=ftcoreModule skipwhite
syn match ftcoreSize "^\s*\zstracing\ze\%(\s\|$\)" nextgroup=ftcoreOption skipwhite
syn match ftcoreSize "^\s*\zstrigger\ze\%(\s\|$\)" nextgroup=ftcoreTrigger skipwhite
syn match ftcoreDeclaration "^\s*\zsuser\ze\%(\s\|$\)" nextgroup=ftcoreUser skipwhite
syn match ftcoreDeclaration "^\s*\zscpu\ze\%(\s\|$\)" nextgroup=ftcoreNumberOf skipwhite
syn match ftcoreDeclaration "^\s*\zstask\ze\%(\s\|$\)" nextgroup=ftcoreNumberOf skipwhite
syn match ftcoreDeclaration "^\s*\zslane\ze\%(\s\|$\)" nextgroup=ftcoreNumber skipwhite
syn match ftcoreAct "^\s*\zscall\ze\%(\s\|$\)" nextgroup=ftcoreName skipwhite
syn match ftcoreAct "^\s*\zsafter\ze\%(\s\|$\)" nextgroup=ftcoreNumber skipwhite
syn match ftcoreAct "^\s*\zs\%(ret\|softirq\|irq\|nmi\|iret\)\ze\%(\s\|$\)"
syn match ftcoreControl "^\s*\zsctl\ze\%(\s\|$\)" nextgroup=ftcoreCommand skipwhite
syn match ftcoreSchedule "^\s*\zssched\ze\%(\s\|$\)" nextgroup=ftcoreTurn skipwhite

" Names and numbers in the places after them.
syn match ftcoreFunction contained "[A-Za-z_][A-Za-z0-9_.]*" nextgroup=ftcoreModule skipwhite
syn match ftcoreModule contained "[A-Za-z_][A-Za-z0-9_.]*"
syn match ftcoreName contained "[A-Za-z_][A-Za-z0-9_.]*"
syn match ftcoreNumber contained "[0-9]\{1,10}\ze\%(\s\|$\)" nextgroup=ftcoreNumber skipwhite
syn match ftcoreNumberOf contained "[0-9]\{1,10}\ze\%(\s\|$\)" nextgroup=ftcoreWordOf skipwhite
syn match ftcoreWordOf contained "\%(quantum\|cpu\)\ze\%(\s\|$\)" nextgroup=ftcoreNumber skipwhite

" A user's kind and options. What follows ipmodify, call and irq is a function, however it is spelled.
syn match ftcoreUser contained "[A-Za-z_][A-Za-z0-9_.]*" nextgroup=ftcoreKind skipwhite
syn match ftcoreKind contained "\%(function\|graph\|profile\|fprobe\%(\s\+exit\%(\s\+cancel\)\?\)\?\)\ze\%(\s\|$\)" nextgroup=ftcoreOption,ftcoreOptionOf skipwhite
syn match ftcoreOption contained "\%(regs\|pid\|off\)\ze\%(\s\|$\)" nextgroup=ftcoreOption,ftcoreOptionOf skipwhite
syn match ftcoreOptionOf contained "\%(ipmodify\|call\|irq\)\ze\%(\s\|$\)" nextgroup=ftcoreNameOf skipwhite
syn match ftcoreNameOf contained "[A-Za-z_][A-Za-z0-9_.]*" nextgroup=ftcoreOption,ftcoreOptionOf skipwhite

" Commands.
syn match ftcoreCommand contained "\%(register\|unregister\|enable\|disable\)\ze\%(\s\|$\)" nextgroup=ftcoreName skipwhite
syn match ftcoreCommand contained "\%(until\|pid\|nopid\|maxdepth\)\ze\%(\s\|$\)" nextgroup=ftcoreNumber skipwhite
syn match ftcoreCommand contained "\%(load\|unload\)\ze\%(\s\|$\)" nextgroup=ftcoreModule skipwhite
syn match ftcoreCommand contained "\%(filter\|notrace\)\ze\%(\s\|$\)" nextgroup=ftcoreEdited skipwhite
syn match ftcoreEdited contained "[A-Za-z_][A-Za-z0-9_.]*" nextgroup=ftcoreEdit skipwhite
syn match ftcoreEdit contained ">>\?\ze\%(\s\|$\)" nextgroup=ftcoreText skipwhite

" Filter texts, triggers and turns: one word each.
syn match ftcoreText contained "\S\+" contains=ftcoreGlobSign,ftcoreClass,ftcoreMod
syn match ftcoreTrigger contained "\S\+" contains=ftcoreGlobSign,ftcoreClass,ftcoreSwitch
syn match ftcoreGlobSign contained "[*?!]"
syn match ftcoreClass contained "\[!\?.[^]]*\]"
syn match ftcoreMod contained ":mod:"
syn match ftcoreSwitch contained ":trace\%(on\|off\)\%(:[0-9]\{1,7}\)\?$"
syn match ftcoreTurn contained "\%(k\|all\|[0-7]\)\ze\%([*[:blank:]]\|$\)" nextgroup=ftcoreCount,ftcoreTurn skipwhite
syn match ftcoreCount contained "\*[0-9]\{1,10}\ze\%(\s\|$\)" nextgroup=ftcoreTurn skipwhite

hi def link ftcoreError Error
hi def link ftcoreComment Comment
hi def link ftcoreTodo Todo
hi def link ftcoreVersionLine PreProc
hi def link ftcoreDeclaration Type
hi def link ftcoreSize Type
hi def link ftcoreAct Statement
hi def link ftcoreControl Statement
hi def link ftcoreSchedule Repeat
hi def link ftcoreCommand Keyword
hi def link ftcoreEdit Operator
hi def link ftcoreFunction Function
hi def link ftcoreModule Include
hi def link ftcoreName Identifier
hi def link ftcoreNameOf Identifier
hi def link ftcoreEdited Identifier
hi def link ftcoreUser Identifier
hi def link ftcoreNumber Number
hi def link ftcoreNumberOf Number
hi def link ftcoreWordOf Keyword
hi def link ftcoreKind StorageClass
hi def link ftcoreOption StorageClass
hi def link ftcoreOptionOf StorageClass
hi def link ftcoreText String
hi def link ftcoreTrigger String
hi def link ftcoreGlobSign Special
hi def link ftcoreClass Special
hi def link ftcoreMod Special
hi def link ftcoreSwitch Special
hi def link ftcoreTurn Constant
hi def link ftcoreCount Number

let b:current_syntax = "ftcore"

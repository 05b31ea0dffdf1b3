" Syntax of Fluent files.
if exists('b:current_syntax')
  finish
endif
let s:cpo = &cpoptions
set cpoptions&vim

syntax case match
" An entry begins at the front of a line, whatever is open before it.
syntax sync match fluentSync grouphere NONE "^-\=\a[A-Za-z0-9_-]* *="
syntax sync match fluentSync grouphere NONE "^#"
syntax sync minlines=50 maxlines=500

syntax match fluentComment "^#\{1,3}\%( .*\)\=$" contains=fluentTodo,@Spell
syntax keyword fluentTodo TODO FIXME XXX NOTE contained

syntax match fluentMessage "^\a[A-Za-z0-9_-]*\%( *=\)\@=" nextgroup=fluentEquals skipwhite
syntax match fluentTerm "^-\a[A-Za-z0-9_-]*\%( *=\)\@=" nextgroup=fluentEquals skipwhite
syntax match fluentAttribute "\%(^ *\)\@<=\.\a[A-Za-z0-9_-]*\%( *=\)\@=" nextgroup=fluentEquals skipwhite
syntax match fluentEquals "=" contained

" What ends what is open: the next entry, comment or attribute.
syntax region fluentPlaceable matchgroup=fluentBrace start="{" end="}"
      \ end="^\%(-\=\a[A-Za-z0-9_-]* *=\|#\| *\.\a[A-Za-z0-9_-]* *=\)\@=" contains=@fluentExpression,fluentSelect
syntax region fluentCall matchgroup=fluentBrace start="(" end=")"
      \ end="^\%(-\=\a[A-Za-z0-9_-]* *=\|#\| *\.\a[A-Za-z0-9_-]* *=\)\@=" contained contains=@fluentExpression,fluentComma
syntax region fluentSelect matchgroup=fluentArrow start="->" end="}\@="
      \ end="^\%(-\=\a[A-Za-z0-9_-]* *=\|#\| *\.\a[A-Za-z0-9_-]* *=\)\@=" contained
      \ contains=fluentDefault,fluentVariant,fluentPlaceable
syntax match fluentDefault "\%(^ *\)\@<=\*\[\@=" contained nextgroup=fluentVariant
syntax region fluentVariant matchgroup=fluentBrace start="\%(^ *\*\=\)\@<=\[" end="\]" contained
      \ contains=fluentKey,fluentNumber

syntax cluster fluentExpression contains=fluentPlaceable,fluentCall,fluentString,fluentNumber,fluentVariable,
      \fluentReference,fluentTermReference,fluentAccessor,fluentArgument,fluentFunction
syntax match fluentReference "\a[A-Za-z0-9_-]*" contained
syntax match fluentArgument "\a[A-Za-z0-9_-]*\%([ \n\r]*:\)\@=" contained
syntax match fluentFunction "\a[A-Za-z0-9_-]*\%([ \n\r]*(\)\@=" contained
syntax match fluentTermReference "-\a[A-Za-z0-9_-]*" contained
syntax match fluentAccessor "\.\a[A-Za-z0-9_-]*" contained
syntax match fluentVariable "\$\a[A-Za-z0-9_-]*" contained
syntax match fluentNumber "-\=\d\+\%(\.\d\+\)\=" contained
syntax match fluentKey "\a[A-Za-z0-9_-]*" contained
syntax region fluentString start=+"+ skip=+\\.+ end=+"+ oneline contained contains=fluentEscape
syntax match fluentEscape "\\\%(u\x\{4}\|U\x\{6}\|[\\\"]\)" contained

highlight default link fluentComment Comment
highlight default link fluentTodo Todo
highlight default link fluentMessage Function
highlight default link fluentReference Function
highlight default link fluentTerm Type
highlight default link fluentTermReference Type
highlight default link fluentAttribute Identifier
highlight default link fluentAccessor Identifier
highlight default link fluentEquals Operator
highlight default link fluentArrow Operator
highlight default link fluentDefault Operator
highlight default link fluentBrace Delimiter
highlight default link fluentFunction Macro
highlight default link fluentArgument Label
highlight default link fluentVariable Special
highlight default link fluentNumber Number
highlight default link fluentKey Constant
highlight default link fluentString String
highlight default link fluentEscape SpecialChar

let b:current_syntax = 'fluent'
let &cpoptions = s:cpo
unlet s:cpo

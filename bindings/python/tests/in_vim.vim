" Drives the language server by ALE, and writes what happens as JSON. The guide's lines are in $GUIDE.
set nocompatible nomore encoding=utf-8 hidden noswapfile
exe 'set runtimepath^=' . fnameescape($ALE) . ',' . fnameescape($EDITORS . '/vim')
let g:ale_linters = {'fluent': ['kozhvadi']}
let g:ale_lint_delay = 0
runtime plugin/ale.vim
runtime autoload/ale/util.vim
" Nobody is there to be asked.
function! ale#util#Input(...) abort
  return 'greeting'
endfunction
filetype plugin on
syntax on
exe 'source ' . fnameescape($GUIDE)
let told = {}

function! Found() abort
  return map(copy(ale#engine#GetLoclist(bufnr(''))), '[v:val.lnum, get(v:val, "code", ""), v:val.text]')
endfunction

function! Await(condition) abort
  let left = 3600
  while left && !eval(a:condition)
    sleep 50m
    let left -= 1
  endwhile
endfunction

exe 'edit ' . fnameescape($FOLDER . '/l10n/pl/main.ftl')
let told.filetype = &filetype
ALELint
call Await('len(Found()) > 1')
let told.findings = Found()
call cursor(3, 1)
call search('{ welcome')
normal! 2l
call ale#rename#Execute()
call Await('getline(2) =~# "^greeting"')
let told.renamed = map(['l10n/pl/main.ftl', 'l10n/pl/mark.ftl', 'l10n/en-US/main.ftl'],
      \ 'bufexists($FOLDER . "/" . v:val) && bufloaded($FOLDER . "/" . v:val)'
      \ . ' ? getbufline($FOLDER . "/" . v:val, 1, "$") : readfile($FOLDER . "/" . v:val)')
call rename($FOLDER . '/l10n/en-US', $FOLDER . '/l10n/away')
" ALE tells the server of a file again only if it has changed.
call append('$', '# The reference is away.')
ALELint
call Await('index(map(Found(), "v:val[1]"), "missing-reference") >= 0')
let told.without = Found()
call writefile([json_encode(told)], $TOLD)
qa!

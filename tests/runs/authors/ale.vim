" vim -Nu ale.vim FILE, with SAID the file for what is said: ALE sees the diagnostic of the file, takes the first action, and
" sees none left. The lines down to `---` are those that a user writes.
set nocompatible nomore viminfo= noswapfile
execute 'set runtimepath^=' . (empty($ALE) ? '/usr/share/vim-ale' : $ALE)
filetype plugin on
autocmd BufNewFile,BufRead *.links setfiletype links
let g:ale_linters = {'html': ['urlcheck'], 'markdown': ['urlcheck'], 'links': ['urlcheck']}
let g:ale_lint_delay = 0
runtime! plugin/ale.vim
execute 'source ' . $RECIPE
" ---
function! Say(text) abort
  call writefile([a:text], $SAID, 'a')
endfunction
function! Wait(count) abort
  let l:n = 0
  while len(getloclist(0)) != a:count && l:n < 2000
    sleep 10m
    let l:n += 1
  endwhile
  return l:n < 2000
endfunction
" (what a user answers by typing 1)
runtime autoload/ale/util.vim
function! ale#util#Input(message, value, ...) abort
  call Say('choice: ' . substitute(a:message, "\n", ' ', 'g'))
  return '1'
endfunction
function! Try() abort
  ALELint
  call Say('one diagnostic: ' . Wait(1))
  for l:it in getloclist(0)
    call Say(printf('at line %d byte %d', l:it.lnum, l:it.col))
    call cursor(l:it.lnum, l:it.col)
  endfor
  ALECodeAction
  let l:n = 0
  while !&modified && l:n < 1000
    sleep 10m
    let l:n += 1
  endwhile
  call Say('line: ' . getline('.'))
  ALELint
  call Say('none left: ' . Wait(0))
endfunction
autocmd VimEnter * call timer_start(100, {-> execute('call Try() | qa!', '')})

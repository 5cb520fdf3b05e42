" Tables and delta files of collbench have no suffix of their own: they are known by the line LC_COLLATE, before which only comments,
" directives and blank lines stand.

function! s:Detect() abort
  if index(['', 'text', 'conf'], &filetype) < 0
    return
  endif
  let l:comments = '#%'
  for l:line in getline(1, 100)
    let l:words = split(l:line)
    if empty(l:words) || stridx(l:comments, l:words[0][0]) >= 0 || l:words[0] ==# 'escape_char'
      continue
    elseif l:words[0] ==# 'comment_char'
      let l:comments .= get(l:words, 1, '')
    else
      if l:words[0] ==# 'LC_COLLATE' && stridx(l:comments, get(l:words, 1, '#')[0]) >= 0
        set filetype=collbench
      endif
      return
    endif
  endfor
endfunction

autocmd BufRead,StdinReadPost * call s:Detect()

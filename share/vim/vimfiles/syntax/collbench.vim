" Vim syntax file
" Language: tables and delta files of collbench, and the sources that it imports
" What is coloured is told by the grammar of tables and deltas, collbench-table(5) and collbench-delta(5).

if exists('b:current_syntax')
  finish
endif
let s:saved_options = &cpoptions
set cpoptions&vim

" The code of the character that a directive chooses first, or of the one that a text begins with.
function! s:Code(directive, first) abort
  let l:pattern = '^\s*' . a:directive . '\s\+\zs[][!#$%&''()*+/=?@\\^{|}~`]\ze\%(\s\|$\)'
  for l:line in getline(1, 200)
    if l:line =~# l:pattern
      return char2nr(matchstr(l:line, l:pattern))
    endif
  endfor
  return char2nr(a:first)
endfunction

let s:comment = s:Code('comment_char', '#')
let s:escape = s:Code('escape_char', '\')
let s:escaping = '\%d' . s:escape

syntax case match
syntax sync minlines=200

" A word is a run of characters up to a blank, `;`, `,`, `<`, `"` or the comment character, and one may follow the `>` of a symbol.
execute 'syntax iskeyword @,33,35-43,45-58,61,63-126,161-255,^' . s:comment . ',^' . s:escape
syntax keyword collbenchStatement collating-symbol collating-element from symbol-equivalence script section order_start order_end copy
syntax keyword collbenchStatement reorder-after reorder-end reorder-section-after reorder-sections-after reorder-sections-end
syntax keyword collbenchCategory LC_COLLATE
syntax keyword collbenchCondition define ifdef ifndef else endif
syntax keyword collbenchRule forward backward position
syntax keyword collbenchIgnore IGNORE
syntax keyword collbenchUndefined UNDEFINED
syntax keyword collbenchRange .. ... ....

" Escapes, of which those before `d`, `x` and an octal digit are faults; symbols, which may be continued, and are faults where they stay
" open; and strings.
execute 'syntax match collbenchEscape :' . s:escaping . '\%(.\|$\):'
execute 'syntax match collbenchConstant :' . s:escaping . '[dx0-7]:'
execute 'syntax match collbenchOpen :<\%([^>\d' . s:escape . ']\|' . s:escaping . '.\)*$:'
execute 'syntax match collbenchSymbol :<\%([^>\d' . s:escape . ']\|' . s:escaping . '\_.\)*>:'
execute 'syntax match collbenchCodePoint :<\%(' . s:escaping . '\)\=U\x\{4,8}>:'
execute 'syntax region collbenchString start=:": skip=:' . s:escaping . '\%(.\|$\): end=:": end=:$:'
      \ . ' contains=collbenchSymbol,collbenchCodePoint,collbenchEscape,collbenchConstant'
execute 'syntax match collbenchComment :\%d' . s:comment . '.*:'

" Directives, with their character, and what stands behind it, which isn't looked at.
syntax match collbenchDirective :^\s*\%(comment_char\|escape_char\)\%(\s\+\S\)\=\%(\s\|$\)\@=: nextgroup=collbenchPassedOver
syntax match collbenchPassedOver :\s.*: contained

" What stands before the category, and behind it.
execute 'syntax region collbenchPassedOver start=:\%^\%(\s*LC_COLLATE\s*\%(\%d' . s:comment . '.*\)\=$\)\@!:'
      \ . ' end=:^\ze\s*LC_COLLATE\s*\%(\%d' . s:comment . '.*\)\=$: contains=collbenchDirective'
syntax match collbenchCategory :^\s*END\s\+LC_COLLATE\>: nextgroup=collbenchRest skipwhite skipempty
syntax region collbenchRest start=:.: end=:\%$: contained

highlight default link collbenchStatement Statement
highlight default link collbenchCategory Structure
highlight default link collbenchCondition PreCondit
highlight default link collbenchRule Type
highlight default link collbenchIgnore Constant
highlight default link collbenchUndefined Special
highlight default link collbenchRange Operator
highlight default link collbenchEscape SpecialChar
highlight default link collbenchConstant Error
highlight default link collbenchOpen Error
highlight default link collbenchSymbol Identifier
highlight default link collbenchCodePoint Character
highlight default link collbenchString String
highlight default link collbenchComment Comment
highlight default link collbenchDirective PreProc
highlight default link collbenchPassedOver Comment
highlight default link collbenchRest Comment

let b:current_syntax = 'collbench'
let &cpoptions = s:saved_options
unlet s:comment s:escape s:escaping s:saved_options

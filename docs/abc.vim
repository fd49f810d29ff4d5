" Tune books in ABC notation.
" Written by scripts/documents/syntax: change the table that it reads.
if exists('b:current_syntax')
  finish
endif
syntax match abcSpace ;\vy;
syntax match abcBarRest ;\v[ZX][0-9]*[/]*[0-9]*;
syntax match abcRest ;\v[zx][0-9]*[/]*[0-9]*;
syntax match abcNote ;\v(\^\^?|__?|[=])?[A-Ga-g][,']*[0-9]*[/]*[0-9]*;
syntax match abcTie ;\v[\-];
syntax match abcBrokenRhythm ;\v([<]+|[>]+);
syntax match abcTuplet ;\v[(][0-9]+(:[0-9]*)*;
syntax match abcBarLine ;\v(:+[|]*[:\]]*|\[?[|]+[|\]:]*);
syntax match abcEnding ;\v\[[0-9][0-9,\-]*;
syntax match abcGrace ;\v[{][^}]*[}];
syntax match abcDecoration ;\v![^!]*!;
syntax match abcDynamic ;\v!(ppp|pp|p|mp|mf|fff|ff|f)!;
syntax match abcQuoted ;\v"[^"]*";
syntax match abcInlineField ;\v\[[A-Za-z]:[^\]]*\];
syntax match abcOtherField ;\v^[A-Za-z+]:([^|:%][^%]*)?;
syntax match abcKeyField ;\v^K:[^%]*;
syntax match abcTitleField ;\v^T:[^%]*;
syntax match abcNumberField ;\v^X:[^%]*;
syntax match abcComment ;\v[%].*$;
syntax match abcDirective ;\v^[%][%](MIDI program|propagate-accidentals)([ \t][^%]*)?;
highlight default link abcDirective PreProc
highlight default link abcComment Comment
highlight default link abcNumberField Title
highlight default link abcTitleField Title
highlight default link abcKeyField Type
highlight default link abcOtherField Identifier
highlight default link abcInlineField Identifier
highlight default link abcQuoted String
highlight default link abcDynamic Special
highlight default link abcDecoration Special
highlight default link abcGrace SpecialComment
highlight default link abcEnding Number
highlight default link abcBarLine Statement
highlight default link abcTuplet Number
highlight default link abcBrokenRhythm Operator
highlight default link abcTie Operator
highlight default link abcNote Function
highlight default link abcRest Constant
highlight default link abcBarRest Constant
highlight default link abcSpace Comment
let b:current_syntax = 'abc'

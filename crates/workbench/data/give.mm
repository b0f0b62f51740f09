$( Each place where a label may stand. See ~ id and ~ a1i , not ` ~ id ` nor idd nor ~ idd . $)
  $c ( ) -> wff |- $.
  $v ph ps ch $.
  wph $f wff ph $.
  wps $f wff ps $.
  wch $f wff ch $.
  wi $a wff ( ph -> ps ) $.
  $( A label that letters may spell. $)
  B $a |- ( ch -> ch ) $.
  ${
    idi.1 $e |- ph $.
    idi $p |- ph $=
      ( ) B $.
  $}
  ${
    mp.1 $e |- ph $.
    mp.2 $e |- ( ph -> ps ) $.
    $( Modus ponens. $)
    ax-mp $a |- ps $.
  $}
  ax-1 $a |- ( ph -> ( ps -> ph ) ) $.
  ax-2 $a |- ( ( ph -> ( ps -> ch ) ) -> ( ( ph -> ps ) -> ( ph -> ch ) ) ) $.
  ${
    a1i.1 $e |- ph $.
    $( Inference. $)
    a1i $p |- ( ps -> ph ) $=
      wph wps wph wi a1i.1 $( as ~ ax-1 says $) wph wps ax-1 ax-mp $.
  $}
  ${
    a2i.1 $e |- ( ph -> ( ps -> ch ) ) $.
    a2i $p |- ( ( ph -> ps ) -> ( ph -> ch ) ) $=
      ( wi ax-2 ax-mp ) ABCEEABEACEEDABCFG $.
  $}
  $( Identity. $)
  id $p |- ( ph -> ph ) $=
    ( wi ax-1 a2i ax-mp ) AAABZBFAACAFAAFCDE $.
  $( Again, by ~
     id . $)
  idd $p |- ( ps -> ( ph -> ph ) ) $= ( wi id
       a1i ) AA CBADE $.
  last $p |- ( ph -> ph ) $= ? $.

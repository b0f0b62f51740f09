$( Taken by mmrefactor from give.mm
   1108 bytes, SHA-256 27d948ce2af5780703313a732c24d115157f077864d974d20187be10ce599040
   Chosen: all assertions
   Changed names: 0
   Theorems taken as axioms, their proofs unchecked: 1
     last: its proof is unfinished
$)
$c ( ) -> wff |- $.
$v ph ps ch $.
wph $f wff ph $.
wps $f wff ps $.
wch $f wff ch $.
wi $a wff ( ph -> ps ) $.
B $a |- ( ch -> ch ) $.
${
  idi.1 $e |- ph $.
  idi $p |- ph $= idi.1 $.
$}
${
  ax-mp.1 $e |- ph $.
  ax-mp.2 $e |- ( ph -> ps ) $.
  ax-mp $a |- ps $.
$}
ax-1 $a |- ( ph -> ( ps -> ph ) ) $.
ax-2 $a |- ( ( ph -> ( ps -> ch ) ) -> ( ( ph -> ps ) -> ( ph -> ch ) ) ) $.
${
  a1i.1 $e |- ph $.
  a1i $p |- ( ps -> ph ) $= wph wps wph wi a1i.1 wph wps ax-1 ax-mp $.
$}
${
  a2i.1 $e |- ( ph -> ( ps -> ch ) ) $.
  a2i $p |- ( ( ph -> ps ) -> ( ph -> ch ) ) $= wph wps wch wi wi wph wps wi wph wch wi wi a2i.1 wph wps wch ax-2 ax-mp $.
$}
id $p |- ( ph -> ph ) $= wph wph wph wi wi wph wph wi wph wph ax-1 wph wph wph wi wph wph wph wph wi ax-1 a2i ax-mp $.
idd $p |- ( ps -> ( ph -> ph ) ) $= wph wph wi wps wph id a1i $.
last $a |- ( ph -> ph ) $.

$( Taken by mmrefactor from give.mm
   1108 bytes, SHA-256 27d948ce2af5780703313a732c24d115157f077864d974d20187be10ce599040
   Chosen: for a1i
   Changed names: 0
   Theorems taken as axioms, their proofs unchecked: 0
$)
$c ( ) -> wff |- $.
$v ph ps ch $.
wph $f wff ph $.
wps $f wff ps $.
wch $f wff ch $.
wi $a wff ( ph -> ps ) $.
${
  ax-mp.1 $e |- ph $.
  ax-mp.2 $e |- ( ph -> ps ) $.
  ax-mp $a |- ps $.
$}
ax-1 $a |- ( ph -> ( ps -> ph ) ) $.
${
  a1i.1 $e |- ph $.
  a1i $p |- ( ps -> ph ) $= wph wps wph wi a1i.1 wph wps ax-1 ax-mp $.
$}

$( Taken by mmrefactor from give.mm
   1108 bytes, SHA-256 27d948ce2af5780703313a732c24d115157f077864d974d20187be10ce599040
   Chosen: from idd to idd
   Changed names: 0
   Theorems taken as axioms, their proofs unchecked: 2
     a1i: it stands in front of the choice
     id: it stands in front of the choice
$)
$c ( ) -> wff |- $.
$v ph ps ch $.
wph $f wff ph $.
wps $f wff ps $.
wch $f wff ch $.
wi $a wff ( ph -> ps ) $.
${
  a1i.1 $e |- ph $.
  a1i $a |- ( ps -> ph ) $.
$}
id $a |- ( ph -> ph ) $.
idd $p |- ( ps -> ( ph -> ph ) ) $= wph wph wi wps wph id a1i $.

# one line a function: file:line name | parameters | clauses
function flush(){ if(name!="") print file ":" line " " name " | " sig; name=""; sig="" }
FNR==1{flush()}
/^ *(pub )?(extern "C" )?fn /{ flush(); file=FILENAME; line=FNR; match($0,/fn [a-z_0-9]+/); name=substr($0,RSTART+3,RLENGTH-3); insig=1 }
insig{ s=$0; gsub(/^ +/,"",s); sig=sig " " s; if($0 ~ /^ *\{$/ || $0 ~ /\{ *$/ && $0 !~ /(requires|ensures)/){insig=0} }
END{flush()}

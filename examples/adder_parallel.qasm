// The same with the form of its second half that leaves more room to work side by side.
OPENQASM 2.0;
include "qelib1.inc";
gate maj a,b,c { cx c,b; cx c,a; ccx a,b,c; }
gate uma a,b,c { x b; cx a,b; ccx a,b,c; x b; cx c,a; cx c,b; }
qreg cin[1];
qreg a[2];
qreg b[2];
qreg cout[1];
maj cin[0],b[0],a[0];
maj a[0],b[1],a[1];
cx a[1],cout[0];
uma a[0],b[1],a[1];
uma cin[0],b[0],a[0];

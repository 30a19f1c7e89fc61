// The same with a gate for each rotation R_k of the text-book form, as a file has it that a compiler wrote.
OPENQASM 2.0;
include "qelib1.inc";
gate rk(k) c,t { cp(2*pi/2^k) c,t; }
qreg q[3];
creg c[3];
h q[2];
rk(2) q[1],q[2];
rk(3) q[0],q[2];
h q[1];
rk(2) q[0],q[1];
h q[0];
barrier q;
swap q[0],q[2];

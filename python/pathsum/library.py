"""The gates of `qelib1.inc` as pathsum has it, and bodies for common gates that it hasn't."""
from __future__ import annotations

from typing import Dict

LIBRARY = (
    "u3 u2 u1 u p cx id x y z h s sdg t tdg rx ry rz cz cy ch swap ccx cswap crz cu1 cp cu3 rzz sx"
).split()
"""The 30 gates that `include "qelib1.inc";` binds."""

BODIES: Dict[str, str] = {
    "u0": "gate u0(gamma) a { U(0,0,0) a; }",
    "sxdg": "gate sxdg a { s a; h a; s a; }",
    "cs": "gate cs a,b { cp(pi/2) a,b; }",
    "csdg": "gate csdg a,b { cp(-pi/2) a,b; }",
    "csx": "gate csx a,b { h b; cp(pi/2) a,b; h b; }",
    "ccz": "gate ccz a,b,c { h c; ccx a,b,c; h c; }",
    "dcx": "gate dcx a,b { cx a,b; cx b,a; }",
    "iswap": "gate iswap a,b { s a; s b; h a; cx a,b; cx b,a; h b; }",
    "cu": (
        "gate cu(theta,phi,lambda,gamma) c,t { p(gamma) c; p((lambda+phi)/2) c; p((lambda-phi)/2) t; cx c,t; "
        "u(-theta/2,0,-(phi+lambda)/2) t; cx c,t; u(theta/2,phi,0) t; }"
    ),
    "crx": (
        "gate crx(theta) a,b { u1(pi/2) b; cx a,b; u3(-theta/2,0,0) b; cx a,b; u3(theta/2,-pi/2,0) b; }"
    ),
    "cry": "gate cry(theta) a,b { ry(theta/2) b; cx a,b; ry(-theta/2) b; cx a,b; }",
    "rxx": "gate rxx(theta) a,b { h a; h b; rzz(theta) a,b; h a; h b; }",
    "ryy": "gate ryy(theta) a,b { rx(pi/2) a; rx(pi/2) b; rzz(theta) a,b; rx(-pi/2) a; rx(-pi/2) b; }",
    "rzx": "gate rzx(theta) a,b { h b; rzz(theta) a,b; h b; }",
    "ecr": (
        "gate ecr a,b { h b; cx a,b; u1(pi/4) b; cx a,b; h b; x a; h b; cx a,b; u1(-pi/4) b; cx a,b; h b; }"
    ),
    "rccx": (
        "gate rccx a,b,c { u2(0,pi) c; u1(pi/4) c; cx b,c; u1(-pi/4) c; cx a,c; u1(pi/4) c; cx b,c; u1(-pi/4) c; "
        "u2(0,pi) c; }"
    ),
    "c3x": (
        "gate c3x a,b,c,d { h d; p(pi/8) a; p(pi/8) b; p(pi/8) c; p(pi/8) d; cx a,b; p(-pi/8) b; cx a,b; cx b,c; "
        "p(-pi/8) c; cx a,c; p(pi/8) c; cx b,c; p(-pi/8) c; cx a,c; cx c,d; p(-pi/8) d; cx b,d; p(pi/8) d; cx c,d; "
        "p(-pi/8) d; cx a,d; p(pi/8) d; cx c,d; p(-pi/8) d; cx b,d; p(pi/8) d; cx c,d; p(-pi/8) d; cx a,d; h d; }"
    ),
}
"""Gates that other tools have under these names. Each is the usual gate up to a global phase, where the angles that it
is given are dyadic multiples of pi; the tests hold each against its matrix."""

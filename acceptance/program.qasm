OPENQASM 3.0;
include "stdgates.inc";

// One shot of the bench: a repetition code of five qubits, feedback on its
// syndrome, a teleported qubit, then rounds until the monitor is quiet.
// Paid is an operand that some path reaches with a measurement standing that
// covers it; each part says how many it has, 212 in all.

input int rounds;
input bool early;               // read out early
output int clicks;
const float gap = 120.5;        // pause between two steps
int tries = 0;

qubit[5] data;
qubit[4] anc;                   // ancillas, one for each pair of neighbours
qubit[3] tele;                  // message, sender, receiver
qubit mon;                      // monitor
bit[5] out;
bit[4] syn;                     // syndrome
bit[3] b;                       // bits of the teleportation
bit f;                          // what the monitor said

def both(int one, int other) -> bool { return one + other == 2; }

gate parity left, right, check {
  cx left, check;
  cx right, check;
}

// Preparation. Paid: 0.
reset data; reset anc; reset tele; reset mon;
h data[0];
cx data[0], data[1]; cx data[1], data[2];
ctrl @ x data[2], data[3]; ctrl @ x data[3], data[4];
ry(pi / 8) tele[0];
barrier data, anc, tele, mon;

// First round: the ancillas and the monitor are measured. Paid: 0.
parity data[0], data[1], anc[0]; parity data[1], data[2], anc[1];
parity data[2], data[3], anc[2]; parity data[3], data[4], anc[3];
sx mon;
barrier data, anc[0:3];
measure anc -> syn;
f = measure mon;

// ---- 31 decisions in a row ----

// 1 to 5: one data qubit for each pattern. The data are clean, the ancillas
// are not. Paid: 8.
if (syn[0] == 1) { x data[0]; cz anc[0], data[0]; }
if (both(syn[0], syn[1])) { x data[1]; ccx anc[0], anc[1], data[1]; }
if (both(syn[1], syn[2])) { x data[2]; ccx anc[1], anc[2], data[2]; }
if (both(syn[2], syn[3])) { x data[3]; ccx anc[2], anc[3], data[3]; }
if (syn[3] == 1) { x data[4]; cz anc[3], data[4]; }

// 6 to 9: an ancilla is flipped back and not reset. Paid: 14.
if (syn[0] == 1) { x anc[0]; delay[gap] anc[0], data[0]; barrier anc[0:1], data[0:1]; }
if (syn[1] == 1) { x anc[1]; delay[gap] anc[1], data[1]; barrier anc[1:2], data[1:2]; }
if (syn[2] == 1) { x anc[2]; delay[gap] anc[2], data[2]; barrier anc[2:3], data[2:3]; }
if (syn[3] == 1) {
  x anc[3];
  delay[gap] anc[3], data[3];
  barrier anc[0:3], data[3:4];
} else {
  rz(pi / 64) anc[3];
  delay[2 * gap] anc[3], data[4];
}

// 10 to 12: a reset in one arm, or in an arm that may be skipped, does not
// help after it. Paid: 15.
if (f == 0) {
  reset anc; h anc;
} else {
  x anc[0:1]; x anc[2:3];
  rz(pi / 4) anc;
}
if (syn[1] == 0) { reset anc; reset mon; cx anc[0], mon; }
if (syn[2] == 0) {
  cx anc[0], anc[1]; cx anc[2], anc[3];
  swap anc[1], anc[2];
  cx mon, anc[0];
  cp(pi / 2) mon, data[0];
  barrier anc, mon, data;
  delay[gap] mon;
}

// 13 and 14: a reset in both arms; ancillas and monitor are clean after it.
// Paid: 3.
if (early) {
  reset anc; reset mon;
} else {
  delay[gap / 2] mon, anc;
  x mon;
  reset anc; reset mon;
}
if (both(syn[0], syn[3])) { parity data[0], data[1], anc[0]; barrier anc, mon; }

// 15 to 17: single ancillas are measured again, in one arm and in both. Only
// a measurement of all covers the whole register: `h anc` is clean. Paid: 9.
if (syn[0] + syn[1] > 0) {
  parity data[0], data[1], anc[0]; parity data[1], data[2], anc[1];
  measure anc[0:1] -> syn[0:1];
}
if (syn[2] + syn[3] > 0) {
  parity data[2], data[3], anc[2];
  syn[2] = measure anc[2];
} else {
  parity data[3], data[4], anc[3];
  syn[3] = measure anc[3];
}
if (syn[0] == syn[2]) {
  h anc;
  barrier anc[0:1], anc[2:3], mon;
  ctrl(2) @ z anc[0], anc[1], data[0];
  cz anc[1], anc[2]; ch anc[2], anc[3];
  reset anc[0];
  cx anc[0], anc[3];
}

// 18 to 23: teleportation, measured in both arms. The receiver is clean until
// all three may have been read out early. Paid: 18.
if (f == 1) {
  h tele[1];
  cx tele[1], tele[2]; cx tele[0], tele[1];
  h tele[0];
  measure tele[0:1] -> b[0:1];
} else {
  swap tele[0], tele[2];
  b[0] = measure tele[0]; b[1] = measure tele[1];
}
if (b[1] == 1) { x tele[2]; cx tele[1], tele[2]; negctrl @ x tele[0], tele[2]; }
if (b[0] == 1) {
  z tele[2];
  cp(pi / 2) tele[0], tele[2]; cp(-pi / 4) tele[1], tele[2];
  barrier tele[0:2], data;
}
if (both(b[0], b[1])) {
  reset tele[0];
  cx tele[0], tele[1];
} else {
  reset tele[0];
  U(pi / 2, 0, pi) tele[0];
  delay[gap] tele[0], tele[1], tele[2];
}
if (early) { measure tele -> b; }
if (b[2] == 0) {
  cswap tele[0], tele[1], tele[2];
  h tele;
  inv @ t tele[2];
  reset tele[2]; x tele[2];
  pow(0.5) @ x tele[0:1];
  crz(tau / 16) tele[1], tele[2];
  barrier tele, tele[2];
}

// 24 to 27: the data may be read out early. Paid: 38.
if (early) { measure data -> out; clicks += 1; }
if (out[0] == 1) {
  cx data[0], data[1]; cx data[1], data[2];
  cx data[2], data[3]; cx data[3], data[4];
  barrier data, tele;
  delay[gap] data[0:2], data[3:4], tele;
}
if (both(out[1], out[2])) {
  reset data;
  parity data[0], data[1], anc[0]; parity data[3], data[4], anc[3];
  measure data[0] -> out[0];
} else {
  parity data[0], data[1], anc[0]; parity data[1], data[2], anc[1];
  parity data[2], data[3], anc[2]; parity data[3], data[4], anc[3];
  measure anc -> syn;
}
if (syn[3] == 1) {
  x anc; x data; x tele;
  barrier data, anc, tele, mon;
  delay[gap] anc[0], anc[3], data[0:1], data[4], tele[2], mon;
}

// 28 to 31: last corrections. Every way through the last one resets the data,
// the ancillas and the monitor. Paid: 49.
if (f == 0) {
  parity data[0], data[1], anc[0]; parity data[1], data[2], anc[1];
  parity data[2], data[3], anc[2]; parity data[3], data[4], anc[3];
  rz(pi / 8) data;
  measure mon -> f;
  cx mon, anc[0];
}
if (out[4] == 1) {
  barrier data[0], data[1], data[2], data[3], data[4];
  ry(pi / 16) data;
  swap data[0], data[4]; swap data[1], data[3];
} else {
  sdg data[0:4];
  cx mon, data[4];
  measure data[4] -> out[4];
}
if (b[0] != b[2]) {
  barrier data[0], data[1], data[2], data[3], data[4];
  barrier anc[0], anc[1], anc[2], anc[3], mon;
  ccx tele[0], tele[1], data[0];
} else {
  cy tele[2], mon;
  measure mon -> f;
}
if (tries < rounds) {
  reset data; reset anc; reset tele; reset mon;
} else {
  ccx tele[0], tele[1], mon;
  barrier data, anc, tele[0:1];
  reset data; reset anc; reset mon;
  measure tele -> b;
}

// Rounds of the code. The ancillas are clean, then measured, then reset for
// the next round. Paid: 15.
for int i in [0:3] {
  parity data[0], data[1], anc[0]; parity data[1], data[2], anc[1];
  parity data[2], data[3], anc[2]; parity data[3], data[4], anc[3];
  measure anc -> syn;
  barrier anc[0], anc[1], anc[2], anc[3], data;
  cz anc[0], anc[1]; cz anc[2], anc[3];
  x anc[0:1]; x anc[2:3];
  delay[gap * 2 ** 3] anc, data;
  ccx tele[0], tele[1], tele[2];
  barrier tele, mon;
  reset anc; h anc;
  tries += 1;
}

// Until the monitor is quiet. The body counts once, as its first turn finds
// the marks; the gate after the loop is paid too. Paid: 9.
while (f == 1) {
  h mon;
  cx mon, anc[0];
  measure mon -> f;
  rx(pi) mon;
  cx mon, tele[0];
  swap mon, tele[1];
  barrier mon, tele[0:1], tele[2], data;
  clicks += 1;
}
cx mon, data[0];

// Final readout. The loop may be skipped, so its reset does not help after it.
// Paid: 34.
measure data -> out;
for int k in [0:2:6] {
  delay[gap] data;
  reset data;
  h data;
}
reset data[0]; x data[0];
cx data[0], data[1]; cx data[1], data[2];
cx data[2], data[3]; cx data[3], data[4];
barrier data, anc, tele, mon;
parity data[0], data[1], anc[0]; parity data[1], data[2], anc[1];
parity data[2], data[3], anc[2]; parity data[3], data[4], anc[3];
cswap data[0], data[2], data[4];
ctrl(3) @ x data[0], data[1], data[2], mon;
cx mon, tele[0];
delay[4 * gap] data[0:2], data[3:4], tele, mon;
reset data; reset anc; reset tele; reset mon;
barrier data, anc, tele, mon;

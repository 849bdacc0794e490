/* The same buffer as a channel of four places. What a consumer got last is no local variable, since Spin forgets the
   value of one that nobody reads. */
#ifndef TASKS
#define TASKS 4
#endif

chan buffer = [4] of { byte };
byte got[3];

active [3] proctype producer() {
	byte left = TASKS;
	do
	:: atomic { left > 0 && nfull(buffer) -> buffer!_pid + 1; left-- }
	od
}

active [3] proctype consumer() {
	byte left = TASKS;
	do
	:: atomic { left > 0 && nempty(buffer) -> buffer?got[_pid - 3]; left-- }
	od
}

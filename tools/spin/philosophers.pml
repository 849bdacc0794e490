/* The same philosophers, each a process that eats so many times. Between two meals he stands at the head of his loop. */
#ifndef TASKS
#define TASKS 2
#endif
#define PHILOSOPHERS 8
#define LEFT fork[_pid]
#define RIGHT fork[(_pid + 1) % PHILOSOPHERS]

byte fork[PHILOSOPHERS];

active [PHILOSOPHERS] proctype philosopher() {
	byte meals = TASKS;
	do
	:: atomic { meals > 0 && LEFT == 0 -> LEFT = _pid + 1 }
	   atomic { RIGHT == 0 -> RIGHT = _pid + 1 }
	   atomic { LEFT == _pid + 1 -> LEFT = 0; RIGHT = 0; meals-- }
	od
}

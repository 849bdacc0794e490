/* The same workshop: what is left of each kind of task is counted, and each task is one step. */
#ifndef TASKS
#define TASKS 15
#endif

byte buy = TASKS, saw = TASKS, build = TASKS, sell = TASKS, rent = TASKS, burn = TASKS;
int cash = 60, timber = 0, boards = 0, tables = 0;

active proctype workshop() {
	do
	:: atomic { buy > 0 && cash >= 3 -> buy--; cash = cash - 3; timber = timber + 2 }
	:: atomic { saw > 0 && timber >= 1 -> saw--; timber--; boards = boards + 2 }
	:: atomic { build > 0 && boards >= 2 -> build--; boards = boards - 2; tables++ }
	:: atomic { sell > 0 && tables >= 1 -> sell--; tables--; cash = cash + 5 }
	:: atomic { rent > 0 && cash >= 2 -> rent--; cash = cash - 2 }
	:: atomic { burn > 0 && boards >= 1 -> burn--; boards-- }
	od
}

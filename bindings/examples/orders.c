/* Orders that wait for stock, all in one thread: each is a call that is started, and who delivers serves those that can
 * be served. One that is taken back has no effect, and those that wait when the shop closes are told so. */
#include "service.h"

#include <stdio.h>
#include <string.h>

enum { ORDERS = 10000, DELIVERED = 5000 };
static const char SHOP[] =
    "(stm 3)(var stock 0)"
    "(tx order (k) (if (lt stock k) (retry) (set stock (sub stock k))) k)"
    "(tx deliver (k) (set stock (add stock k)) stock)";

static stm_service *shop;

/* What became of the orders. */
static struct {
    long served, pieces, closed;
} all;

static void is_told(void *own, stm_answer answer) {
    (void)own;
    all.served += answer.code == STM_DONE;
    all.pieces += answer.value;
    all.closed += answer.code == STM_CLOSED;
}

static int64_t order(int64_t pieces) { return stm_start(shop, 0, &pieces, 1, is_told, NULL); }

int main(void) {
    const int64_t delivered = DELIVERED;
    if (stm_service_open(SHOP, strlen(SHOP), NULL, &shop) != STM_DONE) return 1;
    for (int i = 0; i < ORDERS; i++)
        if (order(i % 5 + 1) < 0) return 1;
    printf("%d orders wait\n", ORDERS);
    while (all.served < ORDERS)
        if (stm_atomically(shop, 1, &delivered, 1).code != STM_DONE) return 1;
    printf("%ld are served: %ld pieces\n", all.served, all.pieces);
    int64_t ticket = order(1000000);
    order(2000000);
    printf("taken back: %s\n", stm_word(stm_cancel(shop, ticket)));
    stm_service_free(shop);
    printf("closed: %ld\n", all.closed);
    return 0;
}

/* The orders of the engine, carried out on the files. */
#include "stores.h"

/* How many bytes of orders are fetched at a time. */
#define PIECE 16384

uint64_t number_at(const uint8_t *bytes) {
    uint64_t number = 0;
    for (int place = 7; place >= 0; place--) number = number << 8 | bytes[place];
    return number;
}

struct order {
    int kind, half;
    uint64_t place, length;
};

static struct order order_at(const uint8_t *bytes) {
    return (struct order){bytes[0], bytes[1] & 1, number_at(bytes + 2), number_at(bytes + 10)};
}

/* Writes the bytes of an order that begin at a place of the orders, in pieces. */
static bool write_long(struct store *store, struct order order, size_t at) {
    uint8_t piece[PIECE];
    while (order.length > 0) {
        size_t wanted = order.length < PIECE ? (size_t)order.length : PIECE;
        if (pzt_orders(&store->engine, at, piece, wanted) != wanted) return false;
        if (!device_write(&store->device, order.half, piece, wanted, order.place, &store->fault)) return false;
        at += wanted;
        order.place += wanted;
        order.length -= wanted;
    }
    return true;
}

/* Carries out the first order of a piece of the orders, which begins at a place of them. `bytes` has those of a write, or is NULL
   where they go past the piece. */
static bool carry_out_one(struct store *store, struct order order, const uint8_t *bytes, size_t at) {
    switch (order.kind) {
    case ORDER_WRITES:
        follow_write(store, order.half, order.place, order.length, bytes);
        if (!bytes) return write_long(store, order, at + ORDER_HEAD);
        return device_write(&store->device, order.half, bytes, (size_t)order.length, order.place, &store->fault);
    case ORDER_CUTS:
        return device_cut(&store->device, order.half, order.place, &store->fault);
    case ORDER_SYNCS:
        return device_sync(&store->device, order.half, &store->fault);
    default:
        return false;
    }
}

bool carry_out(struct store *store, size_t count) {
    uint8_t piece[PIECE];
    size_t at = 0;
    while (at < count) {
        size_t have = pzt_orders(&store->engine, at, piece, PIECE), taken = 0;
        if (have < ORDER_HEAD || have > count - at) return false;
        while (have - taken >= ORDER_HEAD) {
            struct order order = order_at(piece + taken);
            bool is_whole = order.length <= have - taken - ORDER_HEAD;
            if (!is_whole && (taken > 0 || order.length > count - at - ORDER_HEAD)) break;
            if (!carry_out_one(store, order, is_whole ? piece + taken + ORDER_HEAD : NULL, at)) return false;
            taken += ORDER_HEAD + (size_t)order.length;
            if (!is_whole) break;
        }
        if (taken == 0) return false;
        at += taken;
    }
    pzt_performed(&store->engine, count);
    return true;
}

int finish(struct store *store, const pzt_done *done) {
    if (done->number == PAZTURROK_DEVICE) return fail(store, PAZTURROK_DEVICE);
    if (done->number != 0) return done->orders > 0 ? fail(store, done->number) : refuse(store, done->number);
    if (done->orders > 0 && !carry_out(store, done->orders)) return fail(store, PAZTURROK_DEVICE);
    return 0;
}


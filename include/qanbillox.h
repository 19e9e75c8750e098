/* Qanbillox: a proved record store on NOR flash.
 *
 * Every request takes the whole image, the number of segments n (2 to 255) and of slots in each b (2 to 255); a move
 * and a rebuild take these of two images. Settings in the older partition format, near the end, are apart from all of
 * this: an image, sizes and answers of their own.
 * Any arguments get an answer from the table below; a refused request (1 to 8, 10 to 14) changes no byte, but for a
 * mount that marks its table unusable.
 * budget is the most flash steps to take: when it is spent the request stops as if the power had gone, and
 * answers QBX_CUT. Recover before the next request then, as after any loss of power; but a format, a move or a rebuild
 * that was cut is begun again.
 *
 * No function allocates, keeps a pointer or has state of its own. A request takes at most 15,128 bytes of stack on
 * x86-64, the account 348,424 bytes, a move 276,888, a salvage 399,576, a rebuild 399,624, measured up to n = 255
 * and b = 255 (bench/stack.c). Link with libqanbillox.a. */
#ifndef QANBILLOX_H
#define QANBILLOX_H

#include <stddef.h>
#include <stdint.h>

#ifdef __cplusplus
extern "C" {
#endif

/* The first that applies is given, in the order 1, 10 or 13, 2, 12, 3 to 5, 11, 6 to 9, 14. Only the mounted form
 * answers 10, only a request by tenant 12 and 13. The account answers 0 or 14, a salvage 0, 1 or 14, a read by tenant
 * may answer 14, and no other request.
 *
 * A put is worn only if it needs a new segment, and then in two cases: the whole part of number / n, number being the
 * largest that it would give a segment, plus the tally of erases that recoveries have set about since the format, the
 * move or the rebuild, reaches 100,000; or the newest segment's header has none of its 1,792 bits left to count one
 * more.
 *
 * An image of version 1 can be read, deleted from and recovered, not put to. To go on writing, move it (qbx_move) to a
 * second buffer, of the same n and b or of others: that one is of version 2 and has all its records. A format loses
 * them. */
enum qbx_answer {
    QBX_DONE = 0,            /* none below */
    QBX_SIZE = 1,            /* n, b or the image's length is wrong; move, rebuild: those of either image */
    QBX_NUMBER = 2,          /* block number 0 or 65,535 */
    QBX_LENGTH = 3,          /* put of 0 bytes, or of over 248 */
    QBX_DAMAGED = 4,         /* the image is neither clean nor unfinished; only format makes a store of it again, and
                                qbx_salvage and qbx_rebuild get out what can be found, without a promise. From a mounted
                                put, delete or read instead: the table is not that of the image; mount again */
    QBX_UNFINISHED = 5,      /* put, delete, read, mount, move (its source): recover first; mounted put, delete, read:
                                the table is not usable; recover, and mount again */
    QBX_ABSENT = 6,          /* read or delete of a block that is not stored */
    QBX_FULL = 7,            /* put of a new block while (n-1)*b-1 are stored; move, rebuild of more blocks than the
                                target holds; by tenant: of a new block while its own quota is used */
    QBX_WORN = 8,            /* put: the chip is worn, as said above */
    QBX_CUT = 9,             /* the budget ended before the steps did */
    QBX_SHORT_TABLE = 10,    /* mounted form: the table has under 65,536 entries; it is untouched */
    QBX_FORMER_VERSION = 11, /* put on an image of version 1; what to do is said above */
    QBX_FOREIGN = 12,        /* by tenant: the block is not in its range, or there is no such tenant */
    QBX_SHARES = 13,         /* by tenant: the list of shares breaks a rule */
    QBX_SHORT_BUFFER = 14    /* account, salvage, read by tenant: the buffer is too short for the text or the contents;
                                it is untouched, and the length is 0 */
};

#define QBX_PAGE 256u          /* bytes in a page */
#define QBX_MOST_CONTENTS 248u /* bytes in a record at most; the least that qbx_put takes is 1 */
#define QBX_PLACES 65536u      /* entries in a table of places at least */
#define QBX_MOST_TENANTS 40u   /* tenants in a list of shares at most */

/* The bytes of an image of this geometry. */
static inline size_t qbx_image_length(size_t n, size_t b) { return n * (b + 1) * QBX_PAGE; }

/* The most records that it holds. */
static inline size_t qbx_capacity(size_t n, size_t b) { return (n - 1) * b - 1; }

/* Erase everything and begin anew, in version 2. Answers QBX_DONE, QBX_SIZE or QBX_CUT; after QBX_CUT run it again. */
uint64_t qbx_format(uint8_t *image, size_t image_length, size_t n, size_t b, uint64_t budget);

/* Store contents, 1 to 248 bytes, under a block number (1 to 65,534), new or again. To have nothing stored there,
 * use qbx_delete. */
uint64_t qbx_put(uint8_t *image, size_t image_length, size_t n, size_t b, uint16_t block,
                 const uint8_t *contents, size_t contents_length, uint64_t budget);

/* Forget a block. */
uint64_t qbx_delete(uint8_t *image, size_t image_length, size_t n, size_t b, uint16_t block, uint64_t budget);

/* Finish or undo what a loss of power interrupted. A clean image takes no step. In version 2 an erase is counted in the
 * header of the newest segment before it is made. */
uint64_t qbx_recover(uint8_t *image, size_t image_length, size_t n, size_t b, uint64_t budget);

/* Find a block's contents in the image. Only a record from a store that still took 0 bytes has length 0. */
uint64_t qbx_read(const uint8_t *image, size_t image_length, size_t n, size_t b, uint16_t block);

/* What format, put, delete and recover, mounted or not, a move and a rebuild give: the answer, and the flash steps
 * done. */
static inline enum qbx_answer qbx_answer_of(uint64_t result) { return (enum qbx_answer)(result & 0xFF); }
static inline uint64_t qbx_steps_of(uint64_t result) { return result >> 8; }

/* What read gives beside the answer: the contents' length and their offset in the image, both 0 if refused. */
static inline size_t qbx_length_of(uint64_t result) { return (size_t)((result >> 8) & 0xFF); }
static inline size_t qbx_offset_of(uint64_t result) { return (size_t)(result >> 16); }

/* The mounted form: a table of places, which the caller lends, says where each block is, so that a call need not go
 * over the whole image. Entry k is the offset of block k's slot in the image, or 0 if it is not stored; entry 0 is 1
 * while the table is usable. It has QBX_PLACES entries, 256 KiB; those past them are never touched. table_length counts
 * entries, not bytes.
 *
 * Mount once, then make mounted calls with the mount's n and b, on image and table as the mount or the last mounted
 * call left them: answers, steps and image are those of qbx_put, qbx_delete and qbx_read, and the table is kept right.
 * If anybody else writes to either meanwhile (a qbx_put, a qbx_recover that takes a step), mount again before the next
 * mounted call: one without it ends, stays inside image and table, and changes nothing if it is refused, but its answer
 * is open, and what it writes may damage the image so that only a format helps. The same goes for a table that outlived
 * a loss of power: its entry 0 is still 1, and it is not usable. Image and table must not overlap.
 *
 * The table is unusable (entry 0 is 0, the rest means nothing) after a mount that answers QBX_DAMAGED or QBX_UNFINISHED
 * and after a mounted call that answers QBX_CUT, with a budget of 0 too. While entry 0 is not 1, a mounted call answers
 * QBX_UNFINISHED, if not 1, 10, 2 or 3. No other refusal touches the table. So, after QBX_CUT and after every start:
 * qbx_recover, then qbx_mount. */

/* Fill the table from a clean image. Answers QBX_DONE, QBX_SIZE, QBX_SHORT_TABLE, QBX_DAMAGED or QBX_UNFINISHED. */
uint64_t qbx_mount(const uint8_t *image, size_t image_length, size_t n, size_t b,
                   uint32_t *table, size_t table_length);

/* Store contents, as qbx_put does. */
uint64_t qbx_mounted_put(uint8_t *image, size_t image_length, size_t n, size_t b,
                         uint32_t *table, size_t table_length, uint16_t block,
                         const uint8_t *contents, size_t contents_length, uint64_t budget);

/* Forget a block, as qbx_delete does. */
uint64_t qbx_mounted_delete(uint8_t *image, size_t image_length, size_t n, size_t b,
                            uint32_t *table, size_t table_length, uint16_t block, uint64_t budget);

/* Find a block's contents, as qbx_read does. */
uint64_t qbx_mounted_read(const uint8_t *image, size_t image_length, size_t n, size_t b,
                          const uint32_t *table, size_t table_length, uint16_t block);

/* Move to another chip: build in target a fresh image of version 2, with target_n segments of target_b slots, that
 * holds the records of source, an image with n and b, which may be of version 1 too. The target is formatted, whatever
 * it held, and then each record is stored in it by rising block number, one of 0 bytes too, all under one budget; its
 * tally is 0. So sources with the same records give the same target. target_n and target_b may be n and b.
 *
 * Answers QBX_DONE, QBX_SIZE, QBX_DAMAGED or QBX_UNFINISHED (both of the source), QBX_FULL if the source has more
 * records than qbx_capacity(target_n, target_b), or QBX_CUT. After QBX_CUT nothing is promised of the target, and a
 * recovery does not help: begin the move again. The source is only read. Source and target must not overlap.
 *
 * The steps are target_n + 21, 5 + length for each record, and 21 for each further segment that the records need. It
 * takes 276,888 bytes of stack: the table that puts the records in order is there. */
uint64_t qbx_move(const uint8_t *source, size_t source_length, size_t n, size_t b,
                  uint8_t *target, size_t target_length, size_t target_n, size_t target_b, uint64_t budget);

/* The account of an image, as text at the front of a lent buffer. Each line ends with the byte 0A:
 *
 *     seg 0 used num 4 live 1 dead 13 cut 1 empty 0
 *                                                One for each segment, by index. Dead slots were replaced or deleted;
 *                                                the writing of a cut one was cut, and recovery has marked it (so in an
 *                                                image that the store has written since a finished format). Torn and
 *                                                wrong slots are in no count.
 *     seg 1 blank                                A segment that still owes an erase has owing for used.
 *     seg 2 torn                                 One that is neither in use nor blank.
 *     block 7 len 2 seg 0 slot 1                 One for each live slot of those in use, by rising block number, equal
 *                                                ones by the segment's number (num, not its index), then by the slot.
 *     recover 0 steps 2                          What qbx_recover would answer, and its steps; if the image is damaged,
 *     fails 3                                    the place, 1 to 8, of the first condition of a clean one that fails
 *                                                (docs/FORMAT.md, States).
 *
 * An unfinished image is shown as it is; the segment whose erase is owed in it is torn, or blank, without its slots. In
 * a damaged image that one is shown as any other. A wrong n, b or length of the image is no refusal: the text is then
 * fails 0 alone, 8 bytes.
 *
 * Answers QBX_DONE, the bytes after the text untouched, or QBX_SHORT_BUFFER, exactly if the text is longer than the
 * buffer, all of which is then untouched. The image is only read, and must not overlap the buffer. The longest text has
 * 2,220 bytes with n = 4 and b = 15, 581,576 with 64 and 255, 2,364,768 with 255 and 255. It takes 348,424 bytes of
 * stack: the tables that put the blocks in order are there. */
uint64_t qbx_account(const uint8_t *image, size_t image_length, size_t n, size_t b, uint8_t *text, size_t text_length);

/* What it, qbx_salvage and qbx_share_read give beside the answer: the length of the text or contents, 0 if there is
 * none. */
static inline size_t qbx_text_length_of(uint64_t result) { return (size_t)(result >> 8); }

/* A length that no account of this geometry exceeds: as many lines as there may be, each as long as they get. */
static inline size_t qbx_account_length(size_t n, size_t b) {
    const size_t segment = sizeof "seg 254 owing num 25499999 live 255 dead 255 cut 255 empty 255\n" - 1;
    const size_t slot = sizeof "block 65534 len 248 seg 254 slot 255\n" - 1;
    return n * (segment + b * slot) + sizeof "recover 0 steps 3\n" - 1;
}

/* Salvage: what can still be found in a damaged image, as text at the front of a lent buffer. Which of it was ever
 * acknowledged cannot be told, and the first line says so. Each line ends with the byte 0A:
 *
 *     salvage promises nothing
 *     block 7 len 2 seg 0 slot 1 same            One for each block number that is found, by rising number: where, by
 *     block 9 len 1 seg 3 slot 2 differs         the segment's index and the slot from 1 to b.
 *
 * Looked at is every slot of live form in a segment whose header is in use, of either version, whatever else is wrong
 * with the image; but where the segment with the largest number of all in use still owes an erase, the one at the index
 * after it is left aside. Of several slots with one block number the one in the segment with the largest number is
 * given (num in the account, not the index), within a segment the last; differs says that another of them, not left
 * aside, has other contents, in length or bytes, and same that none has.
 *
 * It takes any image of a right size: of a clean one it gives the records that are stored, all same, and of an
 * unfinished one those that qbx_recover would leave.
 *
 * Answers QBX_DONE, the bytes after the text untouched; QBX_SIZE; or QBX_SHORT_BUFFER, exactly if the text is longer
 * than the buffer. Refused, all of the buffer is untouched. The image is only read, and must not overlap the buffer.
 * The longest text has 2,329 bytes with n = 4 and b = 15, 659,683 with 64 and 255, 2,665,505 with 255 and 255. It takes
 * 399,576 bytes of stack, 384 KiB of them the tables that put the blocks in order. */
uint64_t qbx_salvage(const uint8_t *image, size_t image_length, size_t n, size_t b, uint8_t *text, size_t text_length);

/* A length that no salvage of this geometry exceeds: as many lines as there are slots, each as long as they get. (One
 * that differs is longer, but stands for two slots at least.) */
static inline size_t qbx_salvage_length(size_t n, size_t b) {
    const size_t slot = sizeof "block 65534 len 248 seg 254 slot 255 same\n" - 1;
    return sizeof "salvage promises nothing\n" - 1 + n * b * slot;
}

/* Rebuild from what a salvage gives: build in target a fresh image of version 2, with target_n segments of target_b
 * slots, that holds for each block number the contents that qbx_salvage gives of source, an image with n and b in any
 * state. It is built as qbx_move builds one, by rising block number, records of 0 bytes too, all under one budget; if
 * nothing is found, it is as after a format. What it holds is promised no more than the salvage is: see which blocks
 * differ before it is taken for the store.
 *
 * Answers QBX_DONE, QBX_SIZE of either image, QBX_FULL if there are more block numbers than
 * qbx_capacity(target_n, target_b), or QBX_CUT; never QBX_DAMAGED or QBX_UNFINISHED. After QBX_CUT nothing is promised
 * of the target, and a recovery does not help: begin the rebuild again. The source is only read. Source and target must
 * not overlap.
 *
 * The steps are target_n + 21, 5 + length for each record, and 21 for each further segment that the records need. It
 * takes 399,624 bytes of stack. */
uint64_t qbx_rebuild(const uint8_t *source, size_t source_length, size_t n, size_t b,
                     uint8_t *target, size_t target_length, size_t target_n, size_t target_b, uint64_t budget);

/* Shares for tenants: put, delete and read by tenant, each of whom has a range of block numbers for its own and a
 * quota. shares has three numbers for each tenant: the first block number of its range, the last (still in it), and how
 * many blocks of the range it may have stored; shares_length counts numbers, not tenants. tenant is its place in that
 * list, from 1.
 *
 * QBX_SHARES: shares_length is no multiple of 3 or over 3 * QBX_MOST_TENANTS, a range is empty or has a number that is
 * no block's (1 to 65,534 are), two overlap, or the quotas add up to more than qbx_capacity(n, b). No tenant at all, a
 * quota of 0, and one larger than its range are right. QBX_FOREIGN: the block is not in this tenant's range, or there
 * is no tenant of that number: 0 is none. So no tenant can read, write or delete another's block.
 *
 * A put of a block that is not stored answers QBX_FULL exactly if as many blocks of the tenant's range are stored as its
 * quota says, or more; one that is stored is rewritten whatever the quota. All else is as qbx_put, qbx_delete and
 * qbx_read answer. That holds of an image written only through these three, with one list, since a format, and read and
 * recovered in any way; on any other the store's own QBX_FULL stands too. From the format on, with these
 * three alone and without a loss of power, nothing that the others do shows in what a tenant gets, as long as nobody
 * was answered QBX_WORN: so there is no budget, and neither a count of steps nor a place comes back. After a loss of power:
 * qbx_recover, as ever; until then the answer may be QBX_UNFINISHED.
 *
 * A put takes about twice the time of qbx_put: the blocks of the range are counted first. Image, list and buffer must
 * not overlap. */

/* Store contents, 1 to 248 bytes. Gives the answer. */
uint64_t qbx_share_put(uint8_t *image, size_t image_length, size_t n, size_t b,
                       const uint32_t *shares, size_t shares_length, uint32_t tenant, uint16_t block,
                       const uint8_t *contents, size_t contents_length);

/* Forget a block. Gives the answer. */
uint64_t qbx_share_delete(uint8_t *image, size_t image_length, size_t n, size_t b,
                          const uint32_t *shares, size_t shares_length, uint32_t tenant, uint16_t block);

/* Copy a block's contents to the front of a lent buffer, the rest of which is untouched. One that is too short for them
 * is untouched: QBX_SHORT_BUFFER; QBX_MOST_CONTENTS bytes are always enough. Gives the answer, and the length as
 * qbx_text_length_of tells it. */
uint64_t qbx_share_read(const uint8_t *image, size_t image_length, size_t n, size_t b,
                        const uint32_t *shares, size_t shares_length, uint32_t tenant, uint16_t block,
                        uint8_t *contents, size_t contents_length);

/* Settings in the older partition format: some boards keep them in an image of their own, beside the store's. It has
 * partitions of equal length, 2, 4, 8, 16, 32, 64 or 128 of them, and each is one erase unit of the chip. A partition
 * is a status byte and then the items of the layout table, in its order and without a gap: an identifier byte, and data
 * of a fixed length. Bytes behind the last item are never looked at. layout is that table as byte pairs, identifier and
 * length; layout_length counts bytes. Neither it nor the number of partitions is kept in the image: give the same each
 * time.
 *
 * The newest partition has all the settings. Statuses are 0 to 254 and then 0 again; those of the partitions that have
 * one are a run in partition order, the first partition following the last, and the newest is the run's last. With
 * every status 255 nothing is written yet, whatever the other bytes are. An item is written exactly if its identifier
 * byte is its identifier.
 *
 * A write goes in place if all bytes of the item in the newest partition are 255: length + 1 steps. Otherwise the next
 * partition is erased, the written items and the new one are programmed there in table order, and then the status:
 * 2 steps, and length + 1 for each of these items. The first write of all does this to partition 0, with status 0.
 * Data comes before its identifier. So a write only clears bits, but for an erase of one whole partition at most, and
 * that is never the newest. Data that the item has already is written again all the same.
 *
 * A loss of power between two steps needs no recovery: afterwards each item reads as before the write that was cut, or
 * the written one as new. Begin that write again, or leave it and go on with any other. Of a loss inside a step, which
 * the store stands, nothing is promised here.
 *
 * Image, layout and data must not overlap: what qbx_settings_read finds lies in the image, so copy it before you write
 * it again. */
enum qbx_settings_answer {
    QBX_SETTINGS_DONE = 0,       /* none below */
    QBX_SETTINGS_PARTITIONS = 1, /* partitions is none of these numbers, or does not divide the image's length */
    QBX_SETTINGS_LAYOUT = 2,     /* the table has a byte left over, an identifier 255 or twice, or a length 0, or status
                                    and items are longer than a partition. A table without items is right */
    QBX_SETTINGS_MISMATCH = 3,   /* the identifier is not in the table; write: or the data has another length */
    QBX_SETTINGS_STATUSES = 4,   /* the statuses are no single run */
    QBX_SETTINGS_UNWRITTEN = 5,  /* read: the item is not written */
    QBX_SETTINGS_CUT = 9         /* write: the budget ended before the steps did */
};

/* The first that applies is given, by rising number; refused (1 to 5), no byte is changed. These numbers mean other
 * things in qbx_answer: here the answer is told by this. Length, offset and steps are told as of the store's requests,
 * by qbx_length_of, qbx_offset_of and qbx_steps_of. */
static inline enum qbx_settings_answer qbx_settings_answer_of(uint64_t result) {
    return (enum qbx_settings_answer)(result & 0xFF);
}

/* Find an item's data in the image. Gives the answer, and the data's length and its offset in the image, both 0 if
 * refused. */
uint64_t qbx_settings_read(const uint8_t *image, size_t image_length, size_t partitions,
                           const uint8_t *layout, size_t layout_length, uint8_t item);

/* Write an item: data of the length that the table says, with at most budget flash steps. Gives the answer, and the
 * steps done. */
uint64_t qbx_settings_write(uint8_t *image, size_t image_length, size_t partitions,
                            const uint8_t *layout, size_t layout_length, uint8_t item,
                            const uint8_t *data, size_t data_length, uint64_t budget);

/* Whether every byte is 255, as an erase leaves it: the store's own test. It looks at groups of eight bytes, from the
 * first byte on, and stops after the first that differs; the last may be shorter. Any bytes, any length, none too. */
uint64_t qbx_is_blank(const uint8_t *bytes, size_t bytes_length);

/* What it gives: 1 if all are 255, otherwise 0, and how many groups it looked at. */
static inline int qbx_blank_of(uint64_t result) { return (int)(result & 0xFF); }
static inline uint64_t qbx_groups_of(uint64_t result) { return result >> 8; }

#ifdef __cplusplus
}
#endif

#endif

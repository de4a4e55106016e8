/* Memory: which frame is whose, page faults, copies on write, and the pages that leave memory. */
#include "system.h"

/* A frame of memory. One with users is in that many tables, at the same place in each of them. */
static struct use {
    u8 users, is_busy;
    u16 page;
    u32 origin;                 /* the kind and the block of the page as it is on the volume */
} uses[FRAMES];

static u8 swap_used[SWAP_BLOCKS];
static u32 first_frame, end_frame, hand;
static struct memory_info info;

static u8 *bytes_of(u32 frame)
{
    return (u8 *) (SYSTEM + frame * PAGE);
}

void set_up_memory(void)
{
    first_frame = (i32) ((u32) memory_begin - SYSTEM) / PAGE;
    end_frame = MFPR(SLR);
    hand = first_frame;
    info.frames = info.free = end_frame - first_frame;
}

/* The entry of an address that a process may have; none for an address of another region, or beyond its pages. */
static u32 *entry_of(struct process *process, u32 address)
{
    i32 page = (i32) (address & 0x3fffffff) / PAGE;
    if ((i32) address < 0)
        return NULL;
    if (address < 0x40000000)
        return page < P0_PAGES ? &process->table[page] : NULL;
    return page >= P1_FIRST ? &process->table[P0_PAGES + page - P1_FIRST] : NULL;
}

/* Blocks for paged-out pages. */

static u32 take_block(void)
{
    for (u32 i = 0; i < SWAP_BLOCKS; i++)
        if (!swap_used[i]) {
            swap_used[i] = 1;
            return FROM_SWAP | (SWAP_FIRST + i);
        }
    return 0;
}

static void free_block(u32 origin)
{
    if ((origin & KIND) == FROM_SWAP)
        swap_used[(origin & NUMBER) - SWAP_FIRST] = 0;
}

/* Frames. */

static u32 *user_entry(u32 frame)
{
    for (int i = 0; i < PROCESSES; i++) {
        u32 *entry = &processes[i].table[uses[frame].page];
        if ((*entry & (VALID | NUMBER)) == (VALID | frame))
            return entry;
    }
    return NULL;
}

/* Takes the page out of a frame. One that was written goes to a block of its own; any other is dropped, and comes back from where it
   came. Tells whether the frame is free now. */
static int take_out(u32 frame)
{
    struct use *use = &uses[frame];
    u32 *entry = user_entry(frame), is_modified = entry && *entry & MODIFY;
    if (!entry)
        return 0;
    if (is_modified && (use->origin & KIND) != FROM_SWAP) {
        u32 block = take_block();
        if (!block)
            return 0;
        use->origin = block;
    }
    *entry = (*entry & COPY ? USER_WRITE : *entry & PROTECTION) | use->origin;
    if (is_modified) {
        use->is_busy = 1;
        transfer(2, SYSTEM_UNIT, use->origin & NUMBER, bytes_of(frame), PAGE);
        use->is_busy = 0;
        info.page_outs++;
    } else {
        info.dropped++;
    }
    return 1;
}

static u32 next_frame(u32 frame)
{
    return frame + 1 < end_frame ? frame + 1 : first_frame;
}

/* A frame for a page at this place of a table: a free one, or the next one by turns whose page can leave. */
static u32 take_frame(u32 page)
{
    u32 frame = hand;
    while (info.free > 0 && uses[frame].users > 0)
        frame = next_frame(frame);
    if (info.free > 0) {
        info.free--;
    } else {
        u32 tried = 0;
        do {
            if (tried++ > 2 * info.frames)
                panic("no memory", info.frames);
            frame = hand = next_frame(hand);
        } while (uses[frame].users != 1 || uses[frame].is_busy || !take_out(frame));
    }
    uses[frame] = (struct use) { 1, 1, page, ZERO };
    return frame;
}

static void release_frame(u32 frame)
{
    struct use *use = &uses[frame];
    if (--use->users == 0) {
        free_block(use->origin);
        info.free++;
    }
}

/* Faults. */

static u32 place_of(const u32 *entry)
{
    return entry - current->table;
}

static void page_in(u32 *entry)
{
    u32 old = *entry, frame = take_frame(place_of(entry));
    if ((old & KIND) == ZERO)
        memset(bytes_of(frame), 0, PAGE);
    else
        transfer(1, SYSTEM_UNIT, old & NUMBER, bytes_of(frame), PAGE);
    uses[frame].origin = old & (KIND | NUMBER);
    *entry = VALID | (old & PROTECTION) | frame;
    uses[frame].is_busy = 0;
    info.page_ins++;
}

/* Translation not valid. Tells whether the process can go on. */
int page_fault(u32 address)
{
    u32 *entry = entry_of(current, address);
    if (!entry || !(*entry & (VALID | KIND)))
        return 0;
    if (!(*entry & VALID))
        page_in(entry);
    return 1;
}

/* An access violation is a matter of course where a shared page is written: the process gets a page of its own. */
int protection_fault(u32 address, int is_write)
{
    u32 *entry = entry_of(current, address), shared, frame;
    if (!entry || !is_write || !(*entry & COPY))
        return 0;
    shared = *entry & NUMBER;
    if (uses[shared].users > 1) {
        uses[shared].is_busy++;
        frame = take_frame(place_of(entry));
        memcpy(bytes_of(frame), bytes_of(shared), PAGE);
        uses[shared].is_busy--;
        uses[frame].is_busy = 0;
        release_frame(shared);
        *entry = VALID | USER_WRITE | MODIFY | frame;
        info.copies++;
    } else {
        *entry = (*entry & ~(COPY | PROTECTION)) | USER_WRITE;
    }
    return 1;
}

/* Address spaces. */

void map_stacks(struct process *process)
{
    u32 *end = &process->table[P0_PAGES + P1_PAGES];
    for (u32 *entry = &process->table[P0_PAGES]; entry < end - 4; entry++)
        *entry = USER_WRITE | ZERO;
    end[-4] = end[-3] = SUPERVISOR_WRITE | ZERO;
    end[-2] = end[-1] = EXECUTIVE_WRITE | ZERO;
}

/* The program's file from page 1 on: its text, its data, and then its zeros. Page 0 stays empty: a null pointer is a fault. */
void map_program(struct process *process, const struct program *program)
{
    u32 *entry = &process->table[1];
    for (u32 i = 0; i < program->count; i++)
        *entry++ = (i < program->text_pages ? USER_READ : USER_WRITE) | FROM_FILE | program->blocks[i];
    for (u32 i = 0; i < program->zero_pages; i++)
        *entry++ = USER_WRITE | ZERO;
}

/* The child has the parent's pages. What either of them may write they share until one of them writes. */
void share_pages(struct process *parent, struct process *child)
{
    map_stacks(child);
    for (u32 i = 0; i < P0_PAGES + P1_PAGES - 4; i++) {
        u32 *entry = &parent->table[i];
        if ((*entry & KIND) == FROM_SWAP && !(*entry & VALID))
            page_in(entry);
        if (*entry & VALID) {
            if ((*entry & PROTECTION) == USER_WRITE)
                *entry = (*entry & ~PROTECTION) | USER_READ | COPY;
            uses[*entry & NUMBER].users++;
        }
        child->table[i] = *entry;
    }
}

void release_pages(struct process *process)
{
    for (u32 i = 0; i < P0_PAGES + P1_PAGES; i++) {
        u32 entry = process->table[i];
        process->table[i] = 0;
        if (entry & VALID)
            release_frame(entry & NUMBER);
        else
            free_block(entry);
    }
}

/* Whether users may read or write the bytes from an address on. A shared page may be written: it will be copied. */
int is_users(u32 address, u32 size, int is_write)
{
    u32 end = address + size;
    for (u32 at = address & ~(PAGE - 1); at < end; at += PAGE) {
        u32 *entry = entry_of(current, at), protection = entry ? *entry & PROTECTION : 0;
        if (protection != USER_WRITE && (protection != USER_READ || (is_write && !(*entry & COPY))))
            return 0;
    }
    return end >= address;
}

int memory_info(struct memory_info *result)
{
    *result = info;
    return 0;
}

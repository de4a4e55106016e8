/* Files, in executive mode: users call by CHME, and this calls the kernel by CHMK for each block. A call holds the lock of the files.

   A volume has 192 blocks at most. Block 0 is the chain: for each block the next one of its file, LAST, or 0 where it is free. Blocks 1
   and 2 are the directory of 32 files. What changes is written at once; so a guest that only reads the volume sees whole files. */
#include "system.h"

enum { UNITS = 2, FILES = 32, PER_BLOCK = BLOCK / sizeof(struct file), BLOCKS = 256, LAST = 0xffff, OPENS = 8, MAGIC = 0x4c424550 };

static struct volume {
    u16 chain[BLOCKS];
    struct file files[FILES];
    int is_loaded;
} volumes[UNITS];

/* An open file: who has it, the next block to read or the last one written, and how many bytes are left to read. */
static struct open {
    u32 owner, unit, index, block, left;
} opens[OPENS];

static u8 buffer[BLOCK];

/* Blocks and directories. */

static int read_block(u32 unit, u32 number, void *to)
{
    return kernel(K_READ, unit, number, (u32) to) == 1 ? 0 : BAD_VOLUME;
}

static int write_block(u32 unit, u32 number, const void *from)
{
    return kernel(K_WRITE, unit, number, (u32) from) == 1 ? 0 : BAD_VOLUME;
}

/* Unit 1 may be written by another guest, so it is read again each time. */
static int load(u32 unit)
{
    struct volume *volume = &volumes[unit];
    if (volume->is_loaded && unit == SYSTEM_UNIT)
        return 0;
    volume->is_loaded = read_block(unit, 0, volume->chain) == 0 && read_block(unit, 1, &volume->files[0]) == 0
        && read_block(unit, 2, &volume->files[PER_BLOCK]) == 0;
    return volume->is_loaded ? 0 : BAD_VOLUME;
}

static int save(u32 unit, u32 index)
{
    struct volume *volume = &volumes[unit];
    int half = index >= PER_BLOCK;
    if (write_block(unit, 0, volume->chain) < 0)
        return BAD_VOLUME;
    return write_block(unit, 1 + half, &volume->files[half * PER_BLOCK]);
}

/* Copies a text of the user's; what doesn't fit is left out. */
static int copy_text(char *to, const char *from, u32 size)
{
    for (; is_users((u32) from, 1, 0); to++, from++) {
        *to = --size > 0 ? *from : 0;
        if (*to == 0)
            return 0;
    }
    return BAD_ADDRESS;
}

/* A file's name of the user's: its unit is loaded, and what follows the unit is copied. */
static int take_name(const char *from, char *name, u32 *unit)
{
    char whole[NAME + 2];
    if (copy_text(whole, from, sizeof whole) < 0)
        return BAD_ADDRESS;
    *unit = whole[0] == 'B' && whole[1] == ':' ? 1 : SYSTEM_UNIT;
    memcpy(name, *unit == SYSTEM_UNIT ? whole : whole + 2, NAME - 1);
    name[NAME - 1] = 0;
    return *name ? load(*unit) : NO_FILE;
}

static int find(u32 unit, const char *name)
{
    for (int i = 0; i < FILES; i++)
        if (volumes[unit].files[i].is_used && strcmp(volumes[unit].files[i].name, name) == 0)
            return i;
    return NO_FILE;
}

static int find_named(const char *name, u32 *unit)
{
    char own[NAME];
    int trouble = take_name(name, own, unit);
    return trouble < 0 ? trouble : find(*unit, own);
}

static u32 free_block_of(struct volume *volume)
{
    for (u32 i = 0; i < BLOCKS; i++)
        if (volume->chain[i] == 0)
            return i;
    return 0;
}

/* Open files. */

static int is_alive(u32 number)
{
    for (int i = 0; i < PROCESSES; i++)
        if (processes[i].number == number && (processes[i].state == READY || processes[i].state == WAITING))
            return 1;
    return 0;
}

static int open_file(u32 unit, u32 index)
{
    struct file *file = &volumes[unit].files[index];
    for (int i = 0; i < OPENS; i++)
        if (!is_alive(opens[i].owner)) {
            opens[i] = (struct open) { current->number, unit, index, file->first, file->size };
            return i;
        }
    return NO_ROOM;
}

static struct open *own(u32 handle)
{
    return handle < OPENS && opens[handle].owner == current->number ? &opens[handle] : NULL;
}

static int open(u32 name, u32 b, u32 c)
{
    u32 unit;
    int index = find_named((const char *) name, &unit);
    return index < 0 ? index : open_file(unit, index);
}

static int create(u32 name, u32 b, u32 c)
{
    char own_name[NAME];
    u32 unit;
    int trouble = take_name((const char *) name, own_name, &unit);
    if (trouble < 0)
        return trouble;
    if (find(unit, own_name) >= 0)
        return FILE_EXISTS;
    for (int i = 0; i < FILES; i++) {
        struct file *file = &volumes[unit].files[i];
        if (!file->is_used) {
            memset(file, 0, sizeof *file);
            strcpy(file->name, own_name);
            file->time = kernel(K_TIME, 0, 0, 0);
            file->is_used = 1;
            trouble = save(unit, i);
            return trouble < 0 ? trouble : open_file(unit, i);
        }
    }
    return NO_ROOM;
}

/* The next block: how many bytes of it are the file's; 0 at its end. */
static int read(u32 handle, u32 to, u32 c)
{
    struct open *open = own(handle);
    if (!open || !is_users(to, BLOCK, 1))
        return BAD_ADDRESS;
    u32 size = open->left < BLOCK ? open->left : BLOCK;
    if (size == 0)
        return 0;
    if (read_block(open->unit, open->block, buffer) < 0)
        return BAD_VOLUME;
    memcpy((void *) to, buffer, BLOCK);
    open->left -= size;
    open->block = volumes[open->unit].chain[open->block];
    return size;
}

/* One more block at the end of a file that was made by E_CREATE. */
static int append(u32 handle, u32 from, u32 size)
{
    struct open *open = own(handle);
    if (!open || size == 0 || size > BLOCK || !is_users(from, size, 0))
        return BAD_ADDRESS;
    struct volume *volume = &volumes[open->unit];
    struct file *file = &volume->files[open->index];
    u32 number = free_block_of(volume);
    if (number == 0)
        return NO_ROOM;
    memset(buffer, 0, BLOCK);
    memcpy(buffer, (const void *) from, size);
    if (write_block(open->unit, number, buffer) < 0)
        return BAD_VOLUME;
    volume->chain[number] = LAST;
    if (file->blocks++ == 0)
        file->first = number;
    else
        volume->chain[open->block] = number;
    open->block = number;
    file->size += size;
    return save(open->unit, open->index);
}

static int close(u32 handle, u32 b, u32 c)
{
    struct open *open = own(handle);
    if (!open)
        return BAD_ADDRESS;
    open->owner = 0;
    return 0;
}

/* Whole files. */

static int delete(u32 name, u32 b, u32 c)
{
    u32 unit;
    int index = find_named((const char *) name, &unit);
    if (index < 0)
        return index;
    struct volume *volume = &volumes[unit];
    struct file *file = &volume->files[index];
    for (u32 block = file->first, left = file->blocks; left > 0; left--) {
        u32 next = volume->chain[block];
        volume->chain[block] = 0;
        block = next;
    }
    file->is_used = 0;
    return save(unit, index);
}

static int rename(u32 from, u32 to, u32 c)
{
    char name[NAME];
    u32 unit, other;
    int index = find_named((const char *) from, &unit), trouble = take_name((const char *) to, name, &other);
    if (index < 0 || trouble < 0)
        return index < 0 ? index : trouble;
    if (unit != other)
        return BAD_VOLUME;
    if (find(unit, name) >= 0)
        return FILE_EXISTS;
    strcpy(volumes[unit].files[index].name, name);
    return save(unit, index);
}

/* The entry at this place of a directory; what isn't used has no name. */
static int list(u32 unit, u32 index, u32 to)
{
    if (unit >= UNITS || index >= FILES || !is_users(to, sizeof(struct file), 1))
        return BAD_ADDRESS;
    if (index == 0 && load(unit) < 0)
        return BAD_VOLUME;
    *(struct file *) to = volumes[unit].files[index];
    return 0;
}

/* Programs. The first block of one has what it needs; its pages come when they are used. */

static int run(u32 name, u32 argument, u32 c)
{
    struct program program;
    u32 unit, *header = (u32 *) buffer;
    int index = find_named((const char *) name, &unit);
    if (index < 0)
        return index;
    struct file *file = &volumes[unit].files[index];
    if (unit != SYSTEM_UNIT || file->blocks > PROGRAM_PAGES || read_block(unit, file->first, buffer) < 0 || header[0] != MAGIC)
        return BAD_PROGRAM;
    strcpy(program.name, file->name);
    program.text_pages = header[1];
    program.count = file->blocks;
    program.zero_pages = header[3];
    for (u32 block = file->first, i = 0; i < file->blocks; i++, block = volumes[unit].chain[block])
        program.blocks[i] = block;
    if (copy_text(program.argument, (const char *) argument, sizeof program.argument) < 0)
        return BAD_ADDRESS;
    kernel(K_UNLOCK, 0, 0, 0);
    return kernel(K_EXECUTE, (u32) &program, 0, 0);
}

void executive_call(struct frame *frame)
{
    static int (*const services[E_CALLS])(u32, u32, u32) = { run, open, create, read, append, close, delete, rename, list };
    int answer = NO_CALL;
    kernel(K_LOCK, 0, 0, 0);
    if (frame->number < E_CALLS)
        answer = services[frame->number](frame->r[1], frame->r[2], frame->r[3]);
    kernel(K_UNLOCK, 0, 0, 0);
    frame->r[0] = answer;
}

/* Where a process begins that the system makes. The name becomes a user's text, on the stack; its end is the empty argument. */
void run_first(const char *name)
{
    char *text = (char *) USER_TOP - NAME;
    strcpy(text, name);
    kernel(K_LOCK, 0, 0, 0);
    kernel(K_EXIT, run((u32) text, (u32) text + strlen(text), 0), 0, 0);
}

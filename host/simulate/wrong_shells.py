"""Wrong shells: what each does, the rule that it breaks, and the changes to shell.c that make it."""

STEPS = """{force_files, disk_sync_directory, write_saved, disk_sync_saved, disk_replace_saved,
                                     disk_sync_directory}"""
WRITE = "disk_write(l->file, l->from, packet + l->start, l->to - l->from)"
STORE = "static int store(const struct saratoga_look *l, const uint8_t *packet)"
START = "void shell_start(void)\n{\n"
HIGHEST = """static uint64_t highest(void)
{
    const struct file *file;
    uint64_t most = 0;
    size_t i;
    for (i = 0; (file = disk_file(i)) != NULL; i++)
        most = file->has[MADE] && file->number > most ? file->number : most;
    return most;
}

"""

WRONG_SHELLS = (
    # a sync in another order, or less of it
    ("does not force the files to disk", "R19.16",
     ((STEPS, "{disk_sync_directory, write_saved, disk_sync_saved, disk_replace_saved, disk_sync_directory}"),)),
    ("does not force the files' names to disk", "R19.16",
     ((STEPS, "{force_files, write_saved, disk_sync_saved, disk_replace_saved, disk_sync_directory}"),)),
    ("saves the snapshot before the files", "R19.16",
     ((STEPS, "{write_saved, disk_sync_saved, disk_replace_saved, disk_sync_directory, force_files, disk_sync_directory}"),)),
    ("does not force the snapshot to disk", "R19.16",
     ((STEPS, "{force_files, disk_sync_directory, write_saved, disk_replace_saved, disk_sync_directory}"),)),
    ("does not force the snapshot's name to disk", "R19.15",
     ((STEPS, "{force_files, disk_sync_directory, write_saved, disk_sync_saved, disk_replace_saved}"),)),
    ("saves what is now", "R19.16", (("state + SARATOGA_ENGINE_PENDING", "state"),)),
    ("calls every sync good", "R19.15", (("int good = sync_is == GOOD;", "int good = 1;"),)),
    ("takes a file off the list before it is written", "R19.16",
     (("    well = " + WRITE, "    add(&dirty, l->file, 0);\n    well = " + WRITE), ("    add(&dirty, l->file, 0); /*", "    /*"))),
    # writes
    ("writes into another file", "R19.14", ((WRITE, WRITE.replace("l->file", "dirty.count > 0 ? dirty.files[0] : l->file")),)),
    ("writes the whole packet", "R19.1",
     ((STORE, STORE.replace("*packet)", "*packet, size_t size)")), ("store(&l, packet)", "store(&l, packet, size)"),
      (WRITE, "disk_write(l->file, saratoga_read(packet, size).offset, packet + saratoga_read(packet, size).payload_at,"
              " saratoga_read(packet, size).payload_len)"))),
    ("says that a write was well which failed", "R19.16", (("    return well;\n", "    return 1;\n"),)),
    ("says that files were made which were not", "R19.16",
     (("packet, size, (uint64_t)well);\n    if (m.kind == SARATOGA_MEET_MAKE && well)",
       "packet, size, 1);\n    if (m.kind == SARATOGA_MEET_MAKE)"),)),
    ("compares nothing", "R19.5", (("return disk_is_equal(l->file, l->from, packet + l->start, l->to - l->from);", "return 1;"),)),
    # names, reports and answers
    ("gives the final name when the file is made", "R19.9",
     (("        add(&dirty, m.file, 0);", "        add(&dirty, m.file, 0), disk_name(m.file);"),)),
    ("reports when the name is given", "R19.14",
     (("(uint64_t)disk_name(next->file));", "(uint64_t)disk_name(next->file)), judge_report(next->id, next->file, next->length);"),)),
    ("does not give a name again that it sees", "R19.14",
     (("(uint64_t)disk_name(next->file)", "(uint64_t)(disk_find(next->file)->has[NAMED] || disk_name(next->file))"),)),
    ("does not check the MD5", "R19.14", (("if (is_spoilt(", "if (0 && is_spoilt("),)),
    ("answers whoever was heard last", "R19.8",
     (("static void answer(uint64_t id)", "static struct address last;\nstatic void answer(uint64_t id)"),
      ("struct address to = {letter.high, letter.low, letter.port};", "struct address to = last;"),
      ("/* ---- packets */", "static struct address last;"),
      ("    judge_arrival(from, packet, size);", "    last = *from;\n    judge_arrival(from, packet, size);"))),
    # what is left of a transfer
    ("sets files aside at once", "R19.16", (("        add(&ended, file, sync_number + 1);", "        disk_aside(file);"),)),
    ("sets files aside though the sync was bad", "R19.16", (("        ended.count = 0;", "        ;"),)),
    ("sets pages aside that were reported", "R19.14", (("    if (!disk_find(file)->has[NAMED])\n", ""),)),
    # a start
    ("begins file numbers anew", "R19.17", (("start * FILES_OF_A_START", "0"),)),
    ("numbers files by those that it finds", "R19.17", (("start * FILES_OF_A_START", "highest() + 1"), (START, HIGHEST + START))),
    ("starts with nothing", "R19.16", (("saved == NULL ? nothing : saved->octets", "nothing"),)),
    # what does not go on
    ("does not say how a sync ended", "liveness", (("    ENGINE->synced(state, sizeof state, sync_number, (uint64_t)good);\n", ""),)),
    ("does not send answers", "liveness", (("        answer(next.id);", "        ;"),)),
    ("does not report", "liveness", (("        judge_report(next.id, next.file, next.length);\n", ""),)),
)

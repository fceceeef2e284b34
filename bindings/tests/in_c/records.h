/* Prints each record by its members; inline, as a file may have none of some. Made by bindings/generate from bindings/interface.toml. */

static inline void show_mdmp_extent(const char *key, uint32_t number) {
    static const named NAMES[] = {
        {0, "Empty"},
        {1, "Absent"},
        {2, "Inside"},
        {3, "Outside"},
    };
    show_named(key, number, NAMES, sizeof NAMES / sizeof *NAMES);
}

static inline void show_mdmp_name_state(const char *key, uint32_t number) {
    static const named NAMES[] = {
        {0, "None"},
        {1, "Given"},
        {2, "Long"},
    };
    show_named(key, number, NAMES, sizeof NAMES / sizeof *NAMES);
}

static inline void show_mdmp_symbol_kind(const char *key, uint32_t number) {
    static const named NAMES[] = {
        {0, "Rsds"},
        {1, "Other"},
        {2, "Short"},
    };
    show_named(key, number, NAMES, sizeof NAMES / sizeof *NAMES);
}

static inline void show_mdmp_place(const char *key, const mdmp_place *row) {
    begin(key, "Place");
    show_number("size", row->size);
    show_number("rva", row->rva);
    show_mdmp_extent("extent", row->extent);
    end();
}

static inline void show_mdmp_name_place(const char *key, const mdmp_name_place *row) {
    begin(key, "NamePlace");
    show_number("rva", row->rva);
    show_number("size", row->size);
    show_mdmp_name_state("state", row->state);
    end();
}

static inline void show_mdmp_header_record(const char *key, const mdmp_header_record *row) {
    begin(key, "Header");
    show_number("flags", row->flags);
    show_number("signature", row->signature);
    show_number("version", row->version);
    show_number("number_of_streams", row->number_of_streams);
    show_number("stream_directory_rva", row->stream_directory_rva);
    show_number("checksum", row->checksum);
    show_number("time_date_stamp", row->time_date_stamp);
    end();
}

static inline void show_mdmp_stream(const char *key, const mdmp_stream *row) {
    begin(key, "Stream");
    show_number("entry", row->entry);
    show_number("stream_type", row->stream_type);
    show_number("size", row->size);
    show_number("rva", row->rva);
    end();
}

static inline void show_mdmp_thread(const char *key, const mdmp_thread *row) {
    begin(key, "Thread");
    show_number("index", row->index);
    show_number("teb", row->teb);
    show_number("stack_start", row->stack_start);
    show_number("entry", row->entry);
    show_number("thread_id", row->thread_id);
    show_number("suspend_count", row->suspend_count);
    show_number("priority_class", row->priority_class);
    show_number("priority", row->priority);
    show_mdmp_place("stack", &row->stack);
    show_mdmp_place("context", &row->context);
    end();
}

static inline void show_mdmp_module(const char *key, const mdmp_module *row) {
    begin(key, "Module");
    show_number("index", row->index);
    show_number("base_of_image", row->base_of_image);
    show_number("entry", row->entry);
    show_number("size_of_image", row->size_of_image);
    show_number("checksum", row->checksum);
    show_number("time_date_stamp", row->time_date_stamp);
    show_number("file_version_ms", row->file_version_ms);
    show_number("file_version_ls", row->file_version_ls);
    show_number("product_version_ms", row->product_version_ms);
    show_number("product_version_ls", row->product_version_ls);
    show_mdmp_name_place("name", &row->name);
    show_mdmp_place("codeview", &row->codeview);
    show_mdmp_place("misc", &row->misc);
    end();
}

static inline void show_mdmp_exception(const char *key, const mdmp_exception *row) {
    begin(key, "ExceptionRecord");
    show_number("index", row->index);
    show_number("exception_record", row->exception_record);
    show_number("exception_address", row->exception_address);
    show_numbers("information", row->information, 15);
    show_number("entry", row->entry);
    show_number("thread_id", row->thread_id);
    show_number("exception_code", row->exception_code);
    show_number("exception_flags", row->exception_flags);
    show_number("number_parameters", row->number_parameters);
    show_mdmp_place("context", &row->context);
    end();
}

static inline void show_mdmp_system(const char *key, const mdmp_system *row) {
    begin(key, "System");
    show_number("index", row->index);
    show_mdmp_name_place("csd_version", &row->csd_version);
    show_number("entry", row->entry);
    show_number("processor_architecture", row->processor_architecture);
    show_number("processor_level", row->processor_level);
    show_number("processor_revision", row->processor_revision);
    show_number("number_of_processors", row->number_of_processors);
    show_number("product_type", row->product_type);
    show_number("major_version", row->major_version);
    show_number("minor_version", row->minor_version);
    show_number("build_number", row->build_number);
    show_number("platform_id", row->platform_id);
    show_number("suite_mask", row->suite_mask);
    show_bytes("cpu", row->cpu, 24);
    end();
}

static inline void show_mdmp_unloaded_module(const char *key, const mdmp_unloaded_module *row) {
    begin(key, "UnloadedModule");
    show_number("index", row->index);
    show_number("base_of_image", row->base_of_image);
    show_number("entry", row->entry);
    show_number("size_of_image", row->size_of_image);
    show_number("checksum", row->checksum);
    show_number("time_date_stamp", row->time_date_stamp);
    show_mdmp_name_place("name", &row->name);
    end();
}

static inline void show_mdmp_region(const char *key, const mdmp_region *row) {
    begin(key, "Region");
    show_number("index", row->index);
    show_number("base_address", row->base_address);
    show_number("allocation_base", row->allocation_base);
    show_number("region_size", row->region_size);
    show_number("entry", row->entry);
    show_number("allocation_protect", row->allocation_protect);
    show_number("state", row->state);
    show_number("protect", row->protect);
    show_number("memory_type", row->memory_type);
    end();
}

static inline void show_mdmp_thread_name(const char *key, const mdmp_thread_name *row) {
    begin(key, "ThreadName");
    show_number("index", row->index);
    show_number("entry", row->entry);
    show_number("thread_id", row->thread_id);
    show_mdmp_name_place("name", &row->name);
    end();
}

static inline void show_mdmp_range(const char *key, const mdmp_range *row) {
    begin(key, "Range");
    show_number("index", row->index);
    show_number("start", row->start);
    show_number("size", row->size);
    show_wide("offset", row->offset_high, row->offset);
    show_number("entry", row->entry);
    show_mdmp_extent("extent", row->extent);
    end();
}

static inline void show_mdmp_registers(const char *key, const mdmp_registers *row) {
    begin(key, "Registers");
    show_number("instruction", row->instruction);
    show_number("stack", row->stack);
    show_number("frame", row->frame);
    end();
}

static inline void show_mdmp_summary_module(const char *key, const mdmp_summary_module *row) {
    begin(key, "SummaryModule");
    show_number("base_of_image", row->base_of_image);
    show_mdmp_name_place("name", &row->name);
    show_number("size_of_image", row->size_of_image);
    show_number("checksum", row->checksum);
    show_number("time_date_stamp", row->time_date_stamp);
    show_number("file_version_ms", row->file_version_ms);
    show_number("file_version_ls", row->file_version_ls);
    show_number("product_version_ms", row->product_version_ms);
    show_number("product_version_ls", row->product_version_ls);
    show_mdmp_place("codeview", &row->codeview);
    end();
}

static inline void show_mdmp_counts(const char *key, const mdmp_counts *row) {
    begin(key, "Counts");
    show_number("streams", row->streams);
    show_number("threads", row->threads);
    show_number("modules", row->modules);
    show_number("exceptions", row->exceptions);
    show_number("ranges", row->ranges);
    show_wide("memory", row->memory_high, row->memory);
    end();
}

-- The C library by LuaJIT's ffi: a filter that is read once, and a stream under it that is fed in pieces. The declarations are
-- those of include/serialcheck.h.
local ffi = require("ffi")
ffi.cdef [[
typedef struct { uint32_t status, reason; uint64_t from, to, bytes, contents, refs, depth, handles, name_from, name_to, whole; } serialcheck_answer;
typedef struct { void *at; bool is_open; } serialcheck_filter;
typedef struct { void *at; bool is_open; } serialcheck_stream;
uint32_t serialcheck_filter_read(const uint8_t *file, size_t len, const uint8_t *modules, size_t modules_len, uint32_t flags,
                                 serialcheck_answer *answer, serialcheck_filter *filter);
void serialcheck_filter_free(serialcheck_filter *filter);
uint32_t serialcheck_stream_new(const serialcheck_filter *filter, serialcheck_answer *answer, serialcheck_stream *stream);
uint32_t serialcheck_stream_feed(serialcheck_stream *stream, const uint8_t *bytes, size_t len, serialcheck_answer *answer);
uint32_t serialcheck_stream_end(serialcheck_stream *stream, serialcheck_answer *answer);
void serialcheck_stream_free(serialcheck_stream *stream);
uint32_t serialcheck_line(const serialcheck_answer *answer, uint8_t *room, size_t room_len, serialcheck_answer *told);
uint32_t serialcheck_class(const uint8_t *bytes, size_t len, const serialcheck_answer *answer, uint8_t *room, size_t room_len,
                           serialcheck_answer *told);
uint32_t serialcheck_reason_name(uint32_t reason, uint8_t *room, size_t room_len, serialcheck_answer *told);
]]
local YES, NO, NO_MEMORY, MORE, SMALL = 0, 1, 3, 4, 6
local STRICT, ANYWHERE, NEED_PATTERN = 1, 2, 4
-- As many bytes as are taken of a text: a line and a name of a reason have fewer, a class name may have more.
local MOST_TEXT = 200

local Library, Filter, Stream, Refusal = {}, {}, {}, {}
for _, class in ipairs { Library, Filter, Stream, Refusal } do
    class.__index = class
end

-- An answer that is no yes before a call has written it.
local function new_answer()
    return ffi.new("serialcheck_answer", { status = NO_MEMORY })
end

-- The text that a call writes into a room, or its front where it is long; nil where there is none.
local function text_of(call)
    local room, told = ffi.new("uint8_t[?]", MOST_TEXT), new_answer()
    local status = call(room, MOST_TEXT, told)
    if status == YES then
        return ffi.string(room, tonumber(told.bytes))
    end
    return status == SMALL and ffi.string(room, MOST_TEXT) .. ".." or nil
end

-- The shared library of this name or path; raises an error where there is none.
function Library.open(name)
    return setmetatable({ calls = ffi.load(name) }, Library)
end

-- The line that the program prints of an answer, without its line feed.
function Library:line(answer)
    local line = text_of(function(...) return self.calls.serialcheck_line(answer, ...) end)
    return line and line:gsub("\n$", "") or "no answer"
end

-- The filter of the bytes of a filter's file; nil and the program's line where they are faulty. One without a pattern is: it lets
-- each class pass, and a file that is being written may have none yet.
function Library:filter(bytes, is_strict, is_anywhere)
    local flags = NEED_PATTERN + (is_strict and STRICT or 0) + (is_anywhere and ANYWHERE or 0)
    local answer, handle = new_answer(), ffi.gc(ffi.new("serialcheck_filter"), self.calls.serialcheck_filter_free)
    if self.calls.serialcheck_filter_read(bytes, #bytes, nil, 0, flags, answer, handle) ~= YES then
        return nil, self:line(answer)
    end
    return setmetatable({ library = self, handle = handle }, Filter)
end

-- The check of one stream that comes in pieces. Where there is no memory for it, its first call says so.
function Filter:stream()
    local calls = self.library.calls
    local stream = { library = self.library, answer = new_answer(), handle = ffi.gc(ffi.new("serialcheck_stream"), calls.serialcheck_stream_free) }
    calls.serialcheck_stream_new(self.handle, stream.answer, stream.handle)
    return setmetatable(stream, Stream)
end

-- Takes the next bytes: nil where they decide nothing, else the refusal.
function Stream:feed(bytes)
    local status = self.library.calls.serialcheck_stream_feed(self.handle, bytes, #bytes, self.answer)
    return status ~= MORE and Refusal.new(self.library, self.answer) or nil
end

-- The end of the stream: nil where it is admitted, else the refusal. The stream is let go.
function Stream:finish()
    local status = self.library.calls.serialcheck_stream_end(self.handle, self.answer)
    return status ~= YES and Refusal.new(self.library, self.answer) or nil
end

-- Lets the stream go, if it was not finished.
function Stream:free()
    self.library.calls.serialcheck_stream_free(self.handle)
end

-- Why a stream is not admitted: its `line`, and the name of its `reason`. That there is no memory is a refusal too.
function Refusal.new(library, answer)
    local reason = answer.status == NO and text_of(function(...) return library.calls.serialcheck_reason_name(answer.reason, ...) end)
    return setmetatable({ library = library, answer = answer, line = library:line(answer), reason = reason or "NoMemory" }, Refusal)
end

-- The class name that was refused, quoted as the program prints it, or the front of a long one; nil where no class was refused.
-- `bytes` are all of the stream up to its refusal.
function Refusal:class(bytes)
    return text_of(function(...) return self.library.calls.serialcheck_class(bytes, #bytes, self.answer, ...) end)
end

return Library

-- Says of each file whether it is handed on: luajit first.lua FILE..
local ffi = require("ffi")
ffi.cdef [[
typedef struct { uint32_t status, reason; uint64_t from, to, bytes, contents, refs, depth, handles, name_from, name_to, whole; } serialcheck_answer;
uint32_t serialcheck_check(const uint8_t *bytes, size_t len, const uint8_t *filter, size_t filter_len, uint32_t flags, serialcheck_answer *answer);
]]
local library = ffi.load("libserialcheck.so.0")
local YES, ANYWHERE = 0, 2
local FILTER = "maxbytes=1000000;maxdepth=20;java.util.*;java.lang.*;!*"

local function admitted(stream, filter)
    local answer = ffi.new("serialcheck_answer")
    return library.serialcheck_check(stream, #stream, filter, #filter, ANYWHERE, answer) == YES
end

for _, name in ipairs(arg) do
    local file = io.open(name, "rb")
    print(file and admitted(file:read("*a"), FILTER) and "handed on" or "refused")
end

-- Keeps what was read of a refused body aside, in a file of its own that only the server's user may read.
local ffi = require("ffi")
local counts = require("serialcheck.counts")
ffi.cdef [[
int open(const char *path, int flags, ...);
ssize_t write(int file, const void *bytes, size_t len);
int close(int file);
char *strerror(int number);
]]
-- O_WRONLY, O_CREAT and O_EXCL of Linux: a file that is there already is not written to.
local NEW_FILE = 0x1 + 0x40 + 0x80
local OWNER_ONLY = 384 -- 0600

local quarantine = {}

local function complaint(path)
    return nil, path .. ": " .. ffi.string(ffi.C.strerror(ffi.errno()))
end

local function write_all(file, bytes)
    local at, left = ffi.cast("const char *", bytes), #bytes
    while left > 0 do
        local written = tonumber(ffi.C.write(file, at, left))
        if written <= 0 then
            return false
        end
        at, left = at + written, left - written
    end
    return true
end

-- Writes the bytes to a new file of the folder: its path, or nil and why there is none. Of one guard at most `most` files are
-- written from the start of the server on.
function quarantine.keep(folder, most, guard, bytes)
    local number = counts.next_kept(guard)
    if number > most then
        return nil, folder .. " is full"
    end
    local path = string.format("%s/%s-%d-%d.body", folder, guard, ngx.time(), number)
    local file = ffi.C.open(path, NEW_FILE, ffi.new("int", OWNER_ONLY))
    if file < 0 then
        return complaint(path)
    end
    local is_written, _, fault = write_all(file, bytes), complaint(path)
    ffi.C.close(file)
    return is_written and path or nil, fault
end

return quarantine

-- The bytes of a filter's file. What its lines mean the library knows (docs/FILTERS.md).
local MOST = 2 ^ 24

local filter_file = {}

-- The bytes of a file; nil and why it cannot be read.
function filter_file.bytes(path)
    local file, fault = io.open(path, "rb")
    if not file then
        return nil, "cannot open " .. fault
    end
    local bytes = file:read(MOST + 1)
    file:close()
    if #(bytes or "") > MOST then
        return nil, "read failed"
    end
    return bytes or ""
end

return filter_file

-- How many bodies each guard has judged, by answer, reason and class, in a shared dictionary of nginx: of all workers, since the
-- server was started. A guard has MOST_ROWS rows; what would need another is counted as `other`.
local MOST_ROWS = 200
local HEAD = "# TYPE serialcheck_bodies_total counter\n"

local counts = {}

-- The dictionary; raises an error where nginx has none.
local function dictionary()
    return ngx.shared.serialcheck or error("serialcheck: nginx has no `lua_shared_dict serialcheck 1m;`", 0)
end

counts.need_dictionary = dictionary

-- Counts one more of these labels of a guard.
local function count(guard, labels)
    local rows, key = dictionary(), string.format('{guard="%s",%s}', guard, labels)
    if rows:incr(key, 1) then
        return
    end
    if rows:incr("rows of " .. guard, 1, 0) > MOST_ROWS then
        key = string.format('{guard="%s",answer="no",reason="other",class=""}', guard)
    end
    rows:incr(key, 1, 0)
end

function counts.add_yes(guard)
    count(guard, 'answer="yes"')
end

-- `class` is quoted, as the program prints it, or nil.
function counts.add_no(guard, reason, class)
    local label = (class or ""):gsub('^"', ""):gsub('"$', ""):gsub('[\\"]', "\\%0")
    count(guard, string.format('answer="no",reason="%s",class="%s"', reason, label))
end

-- All counts, a row each, in the text form that Prometheus reads.
function counts.text()
    local rows, lines = dictionary(), {}
    for _, key in ipairs(rows:get_keys(0)) do
        if key:sub(1, 1) == "{" then
            lines[#lines + 1] = string.format("serialcheck_bodies_total%s %d\n", key, rows:get(key))
        end
    end
    table.sort(lines)
    return HEAD .. table.concat(lines)
end

-- A number that no call since the start of the server has returned, from 1.
function counts.next_kept(guard)
    return dictionary():incr("kept of " .. guard, 1, 0)
end

return counts

-- The settings of a guard: which there are, and what they may be. A slip in one is an error at the start of nginx.
local settings = {}

local KINDS = {
    filter = "string", filterFile = "string", strict = "boolean", anywhere = "boolean", most = "number",
    onRefusal = "string", quarantine = "string", quarantineMost = "number", library = "string",
}
local DEFAULTS = { strict = false, anywhere = true, most = 1048576, onRefusal = "reject", quarantineMost = 1000, library = "libserialcheck.so.0" }
local ON_REFUSAL = { reject = true, quarantine = true, report = true }

local function need(is_right, ...)
    if not is_right then
        error("serialcheck: " .. string.format(...), 0)
    end
end

-- The settings of a guard, with what holds for those that it does not name; raises an error that says what is wrong.
function settings.of(name, given)
    need(type(name) == "string" and name:find("^[%w_-]+$"), "the name of a guard has letters, digits, `_` and `-` alone")
    for key, value in pairs(given) do
        need(KINDS[key], "%s: there is no setting %s", name, key)
        need(type(value) == KINDS[key], "%s: %s is no %s", name, key, KINDS[key])
    end
    local chosen = setmetatable(given, { __index = DEFAULTS })
    need((chosen.filter == nil) ~= (chosen.filterFile == nil), "%s: one of filter and filterFile is wanted", name)
    need(ON_REFUSAL[chosen.onRefusal], "%s: onRefusal is reject, quarantine or report", name)
    need((chosen.onRefusal == "quarantine") == (chosen.quarantine ~= nil), "%s: quarantine is the folder of onRefusal = \"quarantine\"", name)
    return chosen
end

return settings

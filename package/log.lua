-- Gives back the octets of a deposit that wasn't kept: all but a new one, and one whose answer nobody saw.
local deposited, status = tonumber(ngx.var.counter_deposited) or 0, ngx.var.status
if deposited > 0 and status ~= "201" and status ~= "499" and status ~= "504" then
    local octets, hash = ngx.shared.counter_octets, ngx.var.counter_hash
    if octets:incr(hash, -deposited) == 0 then
        octets:delete(hash)
    end
end

-- Says why nginx itself refuses a request, as the counter does: the status, a word and the line's end.
local words = { [400] = "BadRequest", [403] = "NoKey", [404] = "NoRoute", [405] = "Method", [413] = "TooLarge" }
local status = tonumber(ngx.var.counter_refusal) or ngx.status
local word = words[status] or status == 429 and "TooMany" or "Unavailable"
if status == 403 and ngx.var.https == "" then
    word = "NoTls"
elseif status == 429 then
    ngx.header["Retry-After"] = ngx.var.counter_wait
    ngx.header["Access-Control-Expose-Headers"] = "Retry-After"
end
ngx.status = status
local text = status .. " " .. word .. "\n"
ngx.header.content_length = #text
ngx.print(text)

module Colors
end

jr $_

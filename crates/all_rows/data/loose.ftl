
unnormalized-message=This message has
  abnormal spacing and indentation
.class public interface abstract La/J;
.super Ljava/lang/Object;
.implements La/I;
